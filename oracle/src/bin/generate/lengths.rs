//! Lengths with what is left over: records 84 and 85.

use crate::draw::Draw;
use crate::edges::{HALVES, RATES};
use crate::script::{Line, Script, record, u16, u32};

/// Around a whole sample, and up to the largest number that may be carried.
const CARRIED: [u32; 12] = [
    0,
    1,
    49,
    50,
    500,
    999,
    1_000,
    1_001,
    65_535,
    65_536,
    u32::MAX - 999,
    u32::MAX,
];

fn length(ms: u16, rate: u32) -> Line {
    record(0x84, &[u16(ms), u32(rate)])
}

fn carrying(ms: u16, rate: u32, carried: u32) -> Line {
    record(0x85, &[u16(ms), u32(rate), u32(carried)])
}

/// Every rate of the list with every length of its own, and every number carried.
pub fn recorded(script: &mut Script) {
    for rate in RATES.into_iter().chain([u32::MAX]) {
        for ms in HALVES {
            script.add(&length(ms, rate));
        }
        for carried in CARRIED {
            for ms in [0, 1, 3_019, 65_535] {
                script.add(&carrying(ms, rate, carried));
            }
        }
    }
    day(script);
}

/// Forty bells in turn, each with what the one before left over.
fn day(script: &mut Script) {
    let mut carried = 0;
    for bell in 1..=40 {
        let ms = 3_019 + 977 * bell;
        script.add(&carrying(ms, 22_050, carried));
        carried = (carried + ms as u32 * 22_050) % 1_000;
    }
}

/// Also every length at some rates.
pub fn lengths(script: &mut Script) {
    recorded(script);
    for rate in [1, 999, 8_000, 22_050, 44_100, 65_537] {
        for ms in 0..=u16::MAX {
            script.add(&length(ms, rate));
        }
    }
}

pub fn any_length(draw: &mut Draw) -> Line {
    length(draw.u16(), draw.rate())
}

pub fn any_carrying(draw: &mut Draw) -> Line {
    let few = draw.below(1_000);
    let carried = draw.u32();
    let (ms, rate) = (draw.u16(), draw.rate());
    carrying(ms, rate, draw.pick(&[few, few, carried]))
}
