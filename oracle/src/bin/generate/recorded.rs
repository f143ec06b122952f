//! The recorded list, which is replayed where there is no Rust: small, with the edges of every record, and a bad line at
//! its end.

use crate::counts;
use crate::draw::Draw;
use crate::edges::{BYTES, HALVES, INTEGRATORS, RATES, SAMPLES, WORDS};
use crate::engine;
use crate::lengths;
use crate::random;
use crate::script::{Script, i8, mapper, u8, u16, u32};
use crate::sets;
use crate::signals;
use crate::sources;
use crate::writing;

/// With an engine's records, with or without frames, where they are asked for. What the present rules add comes after the rest, which
/// is the same without them.
pub fn print(script: &mut Script, frames: Option<bool>) {
    let present = std::mem::take(&mut script.present);
    for code in [0x45, 0x43, 0x56, 0x59, 0x55, 0x51] {
        sets::bytes(script, code);
    }
    sets::limiter(script);
    sets::clamp(script);
    sets::special_floats(script);
    gains(script);
    lerps(script);
    duties(script);
    fades(script);
    phases(script);
    mappers(script);
    envelopes(script);
    sources::recorded(script);
    signals::recorded(script);
    lengths::recorded(script);
    writing::recorded(script);
    let mut draw = Draw::modest(1);
    for _ in 0..5_000 {
        script.add(&random::any(&mut draw));
    }
    if let Some(frames) = frames {
        engine::recorded(script, frames);
    }
    if present {
        script.present = true;
        edge_gains(script, 0x82, &[0, 1, 127, 128, 253, 254, 255]);
        counts::counts(script);
        engine::recorded_present(script);
    }
    // A lower-case digit: the list can hold one bad line, as nothing after it is read.
    script.add(b"407FfF");
}

/// For every sample a gain out of each sixteenth, another one from sample to sample.
fn gains(script: &mut Script) {
    for sample in -128..=127i8 {
        for part in 0..16 {
            let within = (sample as u8).wrapping_mul(7) % 16;
            script.record(0x40, &[i8(sample), u8(part * 16 + within)]);
        }
    }
    edge_gains(script, 0x40, &[0, 1, 127, 128, 254, 255]);
}

fn edge_gains(script: &mut Script, code: u8, gains: &[u8]) {
    for sample in SAMPLES {
        for gain in gains {
            script.record(code, &[i8(sample), u8(*gain)]);
        }
    }
}

fn lerps(script: &mut Script) {
    let samples = [-128, -127, -1, 0, 1, 64, 126, 127];
    for a in samples {
        for b in samples {
            for fraction in BYTES {
                script.record(0x41, &[i8(a), i8(b), u8(fraction)]);
                script.record(0x53, &[i8(a), i8(b), u8(fraction)]);
            }
        }
    }
}

fn duties(script: &mut Script) {
    for (place, period) in HALVES.into_iter().enumerate() {
        for sample in SAMPLES {
            script.record(0x46, &[i8(sample), u16(period)]);
        }
        for sample in (-128..=127).skip(place % 8).step_by(8) {
            script.record(0x46, &[i8(sample), u16(period)]);
        }
    }
}

fn fades(script: &mut Script) {
    for rate in RATES {
        for ms in HALVES.into_iter().chain(6..40) {
            script.record(0x47, &[u16(ms), u32(rate)]);
        }
    }
}

fn phases(script: &mut Script) {
    for hz in WORDS {
        for rate in WORDS {
            script.record(0x44, &[u32(hz), u32(rate)]);
        }
        script.record(0x52, &[u32(hz)]);
        script.record(0x52, &[u32(hz << 16)]);
    }
}

fn mappers(script: &mut Script) {
    for mode in 0..3 {
        for period in [0, 1, 2, 3, 1_000, 65_535] {
            for integrator in INTEGRATORS {
                script.add(&mapper(mode, period, integrator, &[127, -128, 0, 1, -1]));
            }
        }
    }
    sets::longest_mappers(script);
}

fn envelopes(script: &mut Script) {
    let ticks = [0, 1, 4, 5, 9];
    sets::envelopes(script, 1_000, &[0, 1, 4], &[0, 128, 255], &ticks);
    for rate in [0, 999, 65_537, 65_538] {
        sets::envelopes(script, rate, &[0, 3], &[0, 200], &[0, 2, 60]);
    }
}
