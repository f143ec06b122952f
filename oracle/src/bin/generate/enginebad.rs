//! Scripts of an engine with one bad line, after which nothing is answered: each record of an engine, bad in each way.

use crate::draw::Draw;
use crate::script::{Line, PRESENT_ONLY, Script, lend, record, u8, u16, u32};

pub const ENGINE: [u8; 21] = [
    0x10, 0x11, 0x12, 0x13, 0x14, 0x15, 0x16, 0x17, 0x18, 0x19, 0x1A, 0x1B, 0x1C, 0x1D, 0x30, 0x62,
    0x63, 0x64, 0x65, 0x69, 0x79,
];
pub const FRAMES: [u8; 16] = [
    0x20, 0x21, 0x22, 0x23, 0x24, 0x25, 0x26, 0x27, 0x28, 0x29, 0x2A, 0x2B, 0x2C, 0x66, 0x67, 0x68,
];

pub const OPEN_PRESENT: u8 = 0x70;

/// Codes of no record, near those of records or far from them.
const UNKNOWN: [u8; 12] = [
    0x00, 0x01, 0x02, 0x0F, 0x1E, 0x1F, 0x2D, 0x2F, 0x31, 0x3F, 0x49, 0xFF,
];
const MOST_BYTES: u32 = 4_096;

type Spoil = fn(&mut Draw, u8) -> Line;

/// The last way is to come before an engine is open.
const WAYS: [Spoil; 6] = [short, long, lower_case, other_byte, bad_field, good];

/// A run of good records of the codes in `all`, then a bad one of a code in `spoilt`, then more good ones. The seed chooses
/// code and way in turn, so that as many seeds as there are of both together have each once.
pub fn print(script: &mut Script, seed: u64, count: u32, spoilt: &[u8], all: &[u8]) {
    let mut draw = script.draw(seed);
    let draw = &mut draw;
    let way = seed as usize % WAYS.len();
    let code = spoilt[seed as usize / WAYS.len() % spoilt.len()];
    let before_open = way == WAYS.len() - 1;
    if before_open {
        unopened(script, draw, count);
    } else {
        opened(script, draw.open_code(), draw, count, all);
        // In a box that has the record.
        if PRESENT_ONLY.contains(&code) {
            script.add(&open(OPEN_PRESENT, 2, 8_000, 1_000, 0, 0));
        }
    }
    let bad = match code {
        // These may come before an engine is open.
        0x10 | 0x12 | OPEN_PRESENT if before_open => unknown(draw),
        _ => WAYS[way](draw, code),
    };
    end(script, draw, count, all, &bad);
}

/// The same with a record of the present rules that would be good, in document 01's box. The seed chooses the record.
pub fn print_in_other_box(script: &mut Script, seed: u64, count: u32, all: &[u8]) {
    let mut draw = script.draw(seed);
    let draw = &mut draw;
    opened(script, OPEN_PRESENT, draw, count, all);
    script.add(&open(0x10, 2, 8_000, 1_000, 0, 0));
    let bad = good(draw, PRESENT_ONLY[seed as usize % PRESENT_ONLY.len()]);
    end(script, draw, count, all, &bad);
}

fn opened(script: &mut Script, code: u8, draw: &mut Draw, count: u32, all: &[u8]) {
    script.add(&open(code, 2, 8_000, 1_000, 0, 0));
    good_ones(script, draw, count, all);
}

fn end(script: &mut Script, draw: &mut Draw, count: u32, all: &[u8], bad: &Line) {
    script.add(bad);
    script.add(&open(draw.open_code(), 1, 8_000, 1_000, 0, 0));
    script.record(0x30, &[]);
    good_ones(script, draw, count, all);
    script.ends_with_newline = draw.one_in(2);
}

/// Records that may come before an engine is open, with some that are refused one.
fn unopened(script: &mut Script, draw: &mut Draw, count: u32) {
    for _ in 0..draw.below(count + 1) {
        let code = draw.open_code();
        let line = match draw.below(4) {
            0 => open(code, 17 + draw.below(200) as u8, 8_000, 1_000, 0, 0),
            1 => open(code, 2, 65_538, 1_000, 1, 1),
            2 => open(code, 2, 8_000, draw.below(2) as u16, 2, 0),
            _ => good(draw, 0x12),
        };
        script.add(&line);
    }
}

fn good_ones(script: &mut Script, draw: &mut Draw, count: u32, all: &[u8]) {
    for _ in 0..draw.below(count + 1) {
        let code = draw.pick(all);
        script.add(&good(draw, code));
    }
}

fn open(code: u8, voices: u8, rate: u32, period: u16, mode: u8, policy: u8) -> Line {
    let (rate, period) = (u32(rate), u16(period));
    record(
        code,
        &[u8(voices), rate, period, u8(mode), u8(255), u8(policy)],
    )
}

/// A good record of that code.
fn good(draw: &mut Draw, code: u8) -> Line {
    let (hz, ms) = (u32(draw.u32()), u16(draw.u16()));
    let envelope = [u16(draw.u16()), ms, u8(draw.u8()), u16(draw.u16())];
    let [attack, decay, sustain, release] = envelope;
    let (id, byte) = (u16(draw.u16()), u8(draw.u8()));
    let fields = match code {
        0x10 | OPEN_PRESENT => {
            let (mode, policy) = (draw.below(3) as u8, draw.below(2) as u8);
            let (voices, rate) = (draw.below(18) as u8, draw.rate());
            return open(code, voices, rate, draw.u16(), mode, policy);
        }
        0x11 => vec![u32(draw.rate()), u16(draw.below(4) as u16)],
        0x12 => {
            let bytes: Vec<u8> = (0..draw.below(80)).map(|_| draw.u8()).collect();
            return lend(&bytes);
        }
        0x13 => vec![id, attack, decay, sustain, release, byte],
        0x74 => vec![id, u8(0), id, attack, decay, sustain, release, byte],
        0x14 | 0x73 => vec![id, ms, attack, decay, sustain, release],
        0x15 => vec![hz, ms, u8(draw.below(3) as u8)],
        0x16 => vec![hz, ms, u8(draw.below(4) as u8)],
        0x17 => vec![u8(draw.below(4) as u8), byte],
        0x18 | 0x1C => vec![byte],
        0x62 => vec![id, attack, decay, sustain, release],
        0x63 | 0x69 => vec![u8(draw.below(4) as u8)],
        0x1A | 0x75 => vec![id],
        0x1B => vec![u32(draw.below(100)), u16(draw.below(100) as u16)],
        0x20..=0x2A => vec![u16(draw.below(40) as u16)],
        _ => vec![],
    };
    record(code, &fields)
}

/// Cut anywhere; bytes to be lent in the middle of one, as any number of whole ones is good.
fn short(draw: &mut Draw, code: u8) -> Line {
    let mut line = good(draw, code);
    let kept = 1 + draw.below(line.len() as u32 - 1) as usize;
    line.truncate(if code == 0x12 { kept / 2 * 2 + 1 } else { kept });
    line
}

/// With one digit or more after its end; bytes to be lent by an odd number of digits, or by too many.
fn long(draw: &mut Draw, code: u8) -> Line {
    let mut line = good(draw, code);
    let more = match code {
        0x12 => draw.pick(&[1, 3, 20_001, 2 * MOST_BYTES + 1]),
        _ => draw.pick(&[1, 2, 4, 20_000]),
    };
    line.extend((0..more).map(|_| b'0'));
    line
}

fn lower_case(draw: &mut Draw, code: u8) -> Line {
    let byte = draw.pick(b"abcdef");
    replaced(draw, code, byte)
}

fn other_byte(draw: &mut Draw, code: u8) -> Line {
    let byte = draw.pick(b"/:@G`gxX+-. \t\r\0\x7F\x80\xB0\xFF");
    replaced(draw, code, byte)
}

fn replaced(draw: &mut Draw, code: u8, byte: u8) -> Line {
    let mut line = good(draw, code);
    let place = draw.below(line.len() as u32) as usize;
    line[place] = byte;
    line
}

/// A field that the record does not allow, at an open beside ones that would be refused; an unknown code where the record
/// allows all of them.
fn bad_field(draw: &mut Draw, code: u8) -> Line {
    let (hz, ms) = (u32(draw.u32()), u16(draw.u16()));
    match code {
        0x10 | OPEN_PRESENT => bad_open(draw, code),
        0x12 => {
            let more = 1 + draw.below(3);
            lend(&vec![0x12; (MOST_BYTES + more) as usize])
        }
        0x15 => record(code, &[hz, ms, u8(beyond(draw, 3))]),
        0x16 => record(code, &[hz, ms, u8(beyond(draw, 4))]),
        // The building stands behind the label.
        0x74 => {
            let mut line = good(draw, code);
            line.splice(6..8, format!("{:02X}", beyond(draw, 1)).into_bytes());
            line
        }
        0x20..=0x2A => {
            let any = 2_049 + draw.below(63_487) as u16;
            record(code, &[u16(draw.pick(&[2_049, 65_535, any]))])
        }
        _ => unknown(draw),
    }
}

fn bad_open(draw: &mut Draw, code: u8) -> Line {
    let (mode, policy) = match draw.below(3) {
        0 => (beyond(draw, 3), 0),
        1 => (1, beyond(draw, 2)),
        _ => (beyond(draw, 3), beyond(draw, 2)),
    };
    let (voices, rate) = (draw.pick(&[2, 17]), draw.pick(&[8_000, 65_538]));
    open(code, voices, rate, draw.pick(&[1_000, 1]), mode, policy)
}

/// A byte from the first that is too great on.
fn beyond(draw: &mut Draw, first: u8) -> u8 {
    let any = first + draw.below(256 - first as u32) as u8;
    draw.pick(&[first, 255, any])
}

fn unknown(draw: &mut Draw) -> Line {
    let code = draw.pick(&UNKNOWN);
    record(code, &[u8(draw.u8())])
}
