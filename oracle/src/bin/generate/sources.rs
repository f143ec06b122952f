//! Sources and voices alone: records 60, 61 and 6A.

use crate::draw::Draw;
use crate::edges::RATES;
use crate::script::{Field, Line, Script, record, u8, u16, u24, u32};

/// Kind and waveform of each source.
const SHAPES: [(u8, u8); 8] = [
    (1, 0),
    (1, 1),
    (1, 2),
    (2, 0),
    (2, 1),
    (2, 2),
    (2, 3),
    (3, 0),
];

/// From 0 to the largest, with those around which a step, a count of digits or a hold changes.
const HZ: [u32; 20] = [
    0,
    1,
    7,
    20,
    440,
    999,
    1_000,
    3_999,
    7_999,
    8_001,
    16_000,
    23_952,
    32_702,
    32_703,
    65_537,
    16_777_215,
    16_777_217,
    2_147_483_648,
    4_294_967_040,
    4_294_967_295,
];

fn start((kind, waveform): (u8, u8), hz: u32, parameter: u16, rate: u32) -> Vec<Field> {
    vec![u8(kind), u32(hz), u16(parameter), u8(waveform), u32(rate)]
}

fn source(mut fields: Vec<Field>, skipped: u32, printed: u16) -> Line {
    fields.extend([u24(skipped), u16(printed)]);
    record(0x60, &fields)
}

/// Every waveform at every rate and frequency of the lists, 5,000 requests each; then a long run of each waveform.
pub fn sources(script: &mut Script) {
    for shape in SHAPES {
        for rate in RATES {
            for (place, hz) in HZ.into_iter().enumerate() {
                // A few end within the run; for FM it is the ratio.
                let parameter = [0, 0, 90, 4][place % 4];
                script.add(&source(start(shape, hz, parameter, rate), 4_968, 32));
            }
        }
        for (hz, rate) in [(440, 48_000), (16_001, 65_537), (4_294_967_295, 44_100)] {
            script.add(&source(start(shape, hz, 0, rate), 1_000_000, 64));
        }
        // To the last sample and past it.
        script.add(&source(start(shape, 261, 65_535, 65_537), 4_294_950, 40));
    }
}

/// Short envelopes around each source, on one side and on two, released and not.
pub fn voices(script: &mut Script) {
    let envelopes: [(u16, u16, u8, u16); 4] = [
        (2, 40, 0, 10),
        (0, 0, 255, 0),
        (3, 5, 128, 4),
        (0, 9, 1, 30),
    ];
    for shape in SHAPES {
        for (attack, decay, sustain, release) in envelopes {
            for (gain, pan) in [(255, 128), (0, 0), (128, 255), (200, 129), (255, 127)] {
                for flags in 0..4 {
                    let mut fields = start(shape, 441, 30, 8_000);
                    fields.extend([u16(attack), u16(decay), u8(sustain), u16(release)]);
                    fields.extend([u8(gain), u8(pan), u8(flags % 2)]);
                    fields.extend([u24(37), u8(flags / 2), u16(400)]);
                    script.add(&record(0x61, &fields));
                }
            }
        }
    }
}

/// For the recorded list: document 01's first PolyBLEP samples (sawtooth 127, square 0), then a run of each waveform, printed
/// past its end, and a voice of each on one side and on two; rates that are refused or just not; oscillators from their bits.
pub fn recorded(script: &mut Script) {
    for waveform in [1, 2] {
        script.add(&source(start((2, waveform), 440, 0, 48_000), 0, 1));
    }
    for shape in SHAPES {
        script.add(&source(start(shape, 440, 10, 8_000), 20, 70));
        for stereo in 0..2 {
            let mut fields = start(shape, 440, 10, 8_000);
            fields.extend([u16(2), u16(3), u8(100), u16(4), u8(200), u8(90), u8(stereo)]);
            fields.extend([u24(20), u8(stereo), u16(70)]);
            script.add(&record(0x61, &fields));
        }
        for rate in [0, 65_537, 65_538] {
            script.add(&source(start(shape, 440, 10, rate), 3, 3));
        }
    }
    for waveform in 0..4 {
        for phase in [
            0x8000_0000,
            0x0000_0001,
            0x3F7F_FFFF,
            0x3F80_0000,
            0x7FC0_0000,
        ] {
            for step in [0x8000_0000, 0x3EFF_7CEE, 0x3EFF_7CEF, 0xFF80_0000] {
                script.add(&restored_at(phase, step, waveform, 9));
            }
        }
    }
}

/// 0 and its neighbours, −0 and its own, subnormals, 0.25 and 0.5, 0.499 and 1 with their neighbours, the largest number, infinities
/// and NaNs of both signs.
const BITS: [u32; 32] = [
    0x0000_0000,
    0x8000_0000,
    0x0000_0001,
    0x8000_0001,
    0x007F_FFFF,
    0x0080_0000,
    0x807F_FFFF,
    0x8080_0000,
    0x3300_0000,
    0x3380_0000,
    0x3A83_126F,
    0x3C16_0000,
    0x3E80_0000,
    0x3EFF_7CED,
    0x3EFF_7CEE,
    0x3EFF_7CEF,
    0x3EFF_FFFF,
    0x3F00_0000,
    0x3F00_0001,
    0x3F7F_FFFE,
    0x3F7F_FFFF,
    0x3F80_0000,
    0x3F80_0001,
    0xBF80_0000,
    0xBEFF_7CEE,
    0x7F7F_FFFF,
    0x7F80_0000,
    0xFF80_0000,
    0x7F80_0001,
    0x7FC0_0000,
    0xFFC0_0000,
    0xFFFF_FFFF,
];

fn restored_at(phase: u32, step: u32, waveform: u8, printed: u16) -> Line {
    record(0x6A, &[u32(phase), u32(step), u8(waveform), u16(printed)])
}

/// Every waveform at every phase and step of the list, and long runs from −0, at a step of −0 and at the longest.
pub fn restored(script: &mut Script) {
    for waveform in 0..4 {
        for phase in BITS {
            for step in BITS {
                script.add(&restored_at(phase, step, waveform, 40));
            }
        }
        for step in [0x8000_0000, 0x0000_0001, 0x3C16_0000, 0x3EFF_7CEE] {
            script.add(&restored_at(0x8000_0000, step, waveform, 16_000));
        }
    }
}

/// A phase or step by its bits: one of the list, one within 0 and 1, or any.
fn any_bits(draw: &mut Draw) -> u32 {
    match draw.below(4) {
        0 => draw.pick(&BITS),
        1 => draw.u32(),
        _ => draw.below(0x3F80_0001),
    }
}

pub fn any_restored(draw: &mut Draw) -> Line {
    let (phase, step) = (any_bits(draw), any_bits(draw));
    restored_at(phase, step, draw.below(4) as u8, draw.size(16_000) as u16)
}

fn any_start(draw: &mut Draw) -> Vec<Field> {
    let (shape, hz) = (draw.pick(&SHAPES), draw.u32());
    let (parameter, rate) = (draw.u16(), draw.rate());
    start(shape, hz, parameter, rate)
}

pub fn any_source(draw: &mut Draw) -> Line {
    let fields = any_start(draw);
    source(fields, draw.size(100_000), draw.size(16_000) as u16)
}

pub fn any_voice(draw: &mut Draw) -> Line {
    let mut fields = any_start(draw);
    fields.extend([
        u16(draw.below(12) as u16),
        u16(draw.u16()),
        u8(draw.u8()),
        u16(draw.below(12) as u16),
    ]);
    fields.extend([u8(draw.u8()), u8(draw.u8()), u8(draw.below(2) as u8)]);
    fields.extend([
        u24(draw.size(100_000)),
        u8(draw.below(2) as u8),
        u16(draw.size(16_000) as u16),
    ]);
    record(0x61, &fields)
}
