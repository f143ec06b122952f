//! Records as lines, and a script of them on standard output.

use crate::draw::Draw;
use std::io::{BufWriter, Stdout, Write, stdout};

/// A line without its newline.
pub type Line = Vec<u8>;

/// A field's bits and its width in bytes.
pub type Field = (u32, u32);

pub fn u8(value: u8) -> Field {
    (value as u32, 1)
}

pub fn i8(value: i8) -> Field {
    (value as u32, 1)
}

pub fn u16(value: u16) -> Field {
    (value as u32, 2)
}

/// The low three bytes.
pub fn u24(value: u32) -> Field {
    (value, 3)
}

pub fn u32(value: u32) -> Field {
    (value, 4)
}

pub fn i32(value: i32) -> Field {
    (value as u32, 4)
}

pub fn record(code: u8, fields: &[Field]) -> Line {
    let mut line = Line::new();
    push_hex(&mut line, u8(code));
    for field in fields {
        push_hex(&mut line, *field);
    }
    line
}

fn push_hex(line: &mut Line, (bits, width): Field) {
    for place in (0..2 * width).rev() {
        line.push(b"0123456789ABCDEF"[(bits >> (4 * place)) as usize & 15]);
    }
}

/// An envelope with its rate and ticks: the fields of records 48 and 58.
#[derive(Clone, Copy)]
pub struct Envelope {
    pub attack: u16,
    pub decay: u16,
    pub sustain: u8,
    pub release: u16,
    pub rate: u32,
    pub before: u16,
    pub after: u16,
}

impl Envelope {
    pub fn record(&self, code: u8) -> Line {
        let fields = [
            u16(self.attack),
            u16(self.decay),
            u8(self.sustain),
            u16(self.release),
            u32(self.rate),
            u16(self.before),
            u16(self.after),
        ];
        record(code, &fields)
    }
}

pub fn mapper(mode: u8, period: u16, integrator: i32, samples: &[i8]) -> Line {
    let mut fields = vec![u8(mode), u16(period), i32(integrator)];
    fields.extend(samples.iter().map(|sample| i8(*sample)));
    record(0x57, &fields)
}

pub fn lend(bytes: &[u8]) -> Line {
    let fields: Vec<Field> = bytes.iter().map(|byte| u8(*byte)).collect();
    record(0x12, &fields)
}

/// The records that a box of the present rules alone has.
pub const PRESENT_ONLY: [u8; 7] = [0x73, 0x74, 0x75, 0x76, 0x77, 0x78, 0x7A];

/// The whole state of a box: the dump, and what the present rules add to it.
pub const WHOLE_STATE: &[u8] = &[0x30, 0x7A, 0x76, 0x78];

/// A script on its way out. A newline goes before every line but the first, so that the last can be left without one.
pub struct Script {
    out: BufWriter<Stdout>,
    pub ends_with_newline: bool,
    /// How many lines it has so far.
    pub lines: u64,
    /// Records without fields that come after every other one, if the open box has them.
    pub after_each: &'static [u8],
    /// The code by which the open box was opened; 0 where none is open.
    open: u8,
    /// Whether boxes of both documents are opened.
    pub present: bool,
}

impl Script {
    pub fn new() -> Self {
        Self {
            out: BufWriter::with_capacity(1 << 16, stdout()),
            ends_with_newline: true,
            lines: 0,
            after_each: &[],
            open: 0,
            present: false,
        }
    }

    /// The draws of a run in this script.
    pub fn draw(&self, seed: u64) -> Draw {
        let mut draw = Draw::new(seed);
        draw.present = self.present;
        draw
    }

    pub fn add(&mut self, line: &[u8]) {
        self.line(line);
        for code in self.after_each {
            let after = record(*code, &[]);
            let known = self.is_present() || !PRESENT_ONLY.contains(code);
            if known && after != line {
                self.line(&after);
            }
        }
    }

    fn line(&mut self, line: &[u8]) {
        if self.lines > 0 {
            self.write(b"\n");
        }
        self.lines += 1;
        self.write(line);
    }

    pub fn record(&mut self, code: u8, fields: &[Field]) {
        if is_opened(code, fields) {
            self.open = code;
        }
        self.add(&record(code, fields));
    }

    /// Whether the open box is one of the present rules.
    pub fn is_present(&self) -> bool {
        self.open == 0x70
    }

    pub fn finish(mut self) {
        if self.lines > 0 && self.ends_with_newline {
            self.write(b"\n");
        }
        self.out.flush().unwrap_or_else(|_| std::process::exit(1));
    }

    /// Ends the program where the reader has gone.
    fn write(&mut self, bytes: &[u8]) {
        let written = self.out.write_all(bytes);
        written.unwrap_or_else(|_| std::process::exit(1));
    }
}

/// Whether a record opens a box: of those that would some are refused.
fn is_opened(code: u8, fields: &[Field]) -> bool {
    match (code, fields) {
        (0x10 | 0x70, [voices, rate, period, ..]) => {
            voices.0 <= 16 && rate.0 <= 65_537 && period.0 >= 2
        }
        _ => false,
    }
}
