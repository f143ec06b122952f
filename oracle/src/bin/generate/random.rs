//! One good record of any kind.

use crate::counts;
use crate::draw::Draw;
use crate::lengths;
use crate::script::{Envelope, Line, i8, i32, mapper, record, u8, u16, u32};
use crate::signals;
use crate::sources;
use crate::writing;

type Drawn = fn(&mut Draw) -> Line;

pub const MOST_SAMPLES: u32 = 4_089;

/// Every record that is read today; those of the present rules last.
pub const RECORDS: [(u8, Drawn); 29] = [
    (0x40, |d| record(0x40, &[i8(d.i8()), u8(d.u8())])),
    (0x41, |d| {
        record(0x41, &[i8(d.i8()), i8(d.i8()), u8(d.u8())])
    }),
    (0x42, |d| record(0x42, &[i32(d.sum())])),
    (0x43, |d| record(0x43, &[u8(d.u8())])),
    (0x44, increment),
    (0x45, |d| record(0x45, &[u8(d.u8())])),
    (0x46, |d| record(0x46, &[i8(d.i8()), u16(d.u16())])),
    (0x47, |d| record(0x47, &[u16(d.u16()), u32(d.rate())])),
    (0x48, |d| envelope(d).record(0x48)),
    (0x50, |d| record(0x50, &[u32(d.float())])),
    (0x51, |d| record(0x51, &[u8(d.u8())])),
    (0x52, |d| record(0x52, &[u32(d.u32())])),
    (0x53, |d| {
        record(0x53, &[i8(d.i8()), i8(d.i8()), u8(d.u8())])
    }),
    (0x54, |d| record(0x54, &[i32(d.sum())])),
    (0x55, |d| record(0x55, &[u8(kind(d))])),
    (0x56, |d| record(0x56, &[i8(d.i8())])),
    (0x57, duty_mapper),
    (0x58, |d| envelope(d).record(0x58)),
    (0x59, |d| record(0x59, &[i8(d.i8())])),
    (0x60, sources::any_source),
    (0x61, sources::any_voice),
    (0x6A, sources::any_restored),
    (0x80, signals::any_pattern),
    (0x81, signals::any_reader),
    (0x83, writing::any_bank),
    (0x84, lengths::any_length),
    (0x85, lengths::any_carrying),
    (0x82, |d| record(0x82, &[i8(d.i8()), u8(d.gain())])),
    (0x86, counts::any_count),
];

const BEFORE_PRESENT: usize = 27;

pub fn any(draw: &mut Draw) -> Line {
    let drawn = match draw.present {
        true => &RECORDS[..],
        false => &RECORDS[..BEFORE_PRESENT],
    };
    draw.pick(drawn).1(draw)
}

fn increment(draw: &mut Draw) -> Line {
    let rates = [draw.rate(), draw.u32()];
    record(0x44, &[u32(draw.u32()), u32(draw.pick(&rates))])
}

fn kind(draw: &mut Draw) -> u8 {
    match draw.below(2) {
        0 => draw.below(7) as u8,
        _ => draw.u8(),
    }
}

fn duty_mapper(draw: &mut Draw) -> Line {
    let (mode, period, integrator) = (draw.below(3) as u8, draw.u16(), draw.integrator());
    let count = draw.size(MOST_SAMPLES);
    let samples: Vec<i8> = (0..count).map(|_| draw.i8()).collect();
    mapper(mode, period, integrator, &samples)
}

fn envelope(draw: &mut Draw) -> Envelope {
    // Half of them have phases of a few samples, so that the ticks reach every phase and every end.
    let short = draw.one_in(2);
    let ms = |draw: &mut Draw| match short {
        true => draw.below(10) as u16,
        false => draw.u16(),
    };
    Envelope {
        attack: ms(draw),
        decay: ms(draw),
        sustain: draw.u8(),
        release: ms(draw),
        rate: match short {
            true => 400 + draw.below(1_600),
            false => draw.rate(),
        },
        before: draw.size(65_535) as u16,
        after: draw.size(65_535) as u16,
    }
}
