//! Scripts in which the first-order shaper's sum falls until it wraps: a triangle of 0 Hz stands at −127, and is begun again before
//! its envelope has taken it to 0.

use crate::script::{Script, u8, u16, u32};

const FRAMES: u16 = 256;

pub fn print(script: &mut Script, seed: u64, count: u64) {
    let voices = 1 + (seed % 16) as u8;
    let (first_order, lowest_priority) = (1, 0);
    let fields = [
        u8(voices),
        u32(65_537),
        u16(1_000),
        u8(first_order),
        u8(255),
        u8(lowest_priority),
    ];
    script.record(script.draw(seed).open_code(), &fields);
    for turn in 0..count {
        let (hz, never_ends, triangle) = (0, 0, 2);
        script.record(0x15, &[u32(hz), u16(never_ends), u8(triangle)]);
        script.record(0x20, &[u16(FRAMES)]);
        if turn % 8 == 7 {
            script.record(0x30, &[]);
        }
    }
}
