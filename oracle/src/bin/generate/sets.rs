//! Whole sets: every input of a record where there are few enough, else a grid over the edges.

use crate::counts;
use crate::edges::{self, HALVES, RATES, SAMPLES, WORDS};
use crate::lengths;
use crate::random::MOST_SAMPLES;
use crate::script::{Envelope, Script, i8, i32, mapper as mapper_record, u8, u16, u32};
use crate::signals;
use crate::sources;
use crate::writing;
use oracle::fixed::db_to_q8;

/// How many floats the db set spreads over all bit patterns if not told.
pub const FLOATS: u32 = 2_000_000;

type Print = fn(&mut Script, u32);

pub const SETS: [(&str, Print); 22] = [
    ("gain", |script, _| gain(script, 0x40)),
    ("sine", |script, _| bytes(script, 0x45)),
    ("pan", |script, _| bytes(script, 0x43)),
    ("limiter", |script, _| limiter(script)),
    ("fade", |script, _| fade(script)),
    ("duty", |script, _| duty(script)),
    ("db", db),
    ("lerp", |script, _| lerp(script)),
    ("phase", |script, _| phase(script)),
    ("increment", |script, _| increment(script)),
    ("convert", |script, _| {
        bytes(script, 0x56);
        bytes(script, 0x59)
    }),
    ("kind", |script, _| bytes(script, 0x55)),
    ("clamp", |script, _| clamp(script)),
    ("mapper", |script, _| mapper(script)),
    ("envelope", |script, _| envelope(script)),
    ("sources", |script, _| sources::sources(script)),
    ("voices", |script, _| sources::voices(script)),
    ("restored", |script, _| sources::restored(script)),
    ("pattern", |script, _| signals::patterns(script)),
    ("reader", |script, _| signals::readers(script)),
    ("length", |script, _| lengths::lengths(script)),
    ("writing", |script, _| writing::banks(script)),
];

/// Those of the present rules.
pub const PRESENT_SETS: [(&str, Print); 2] = [
    ("present-gain", |script, _| gain(script, 0x82)),
    ("counts", |script, _| counts::counts(script)),
];

/// Nothing where there is no set of that name.
pub fn print(script: &mut Script, name: &str, floats: u32) -> Option<()> {
    let mut sets = SETS.iter().chain(&PRESENT_SETS);
    let set = sets.find(|set| set.0 == name)?;
    set.1(script, floats);
    Some(())
}

/// A record of one byte, for every byte.
pub fn bytes(script: &mut Script, code: u8) {
    for byte in 0..=255 {
        script.record(code, &[u8(byte)]);
    }
}

fn gain(script: &mut Script, code: u8) {
    for sample in -128..=127 {
        for gain in 0..=255 {
            script.record(code, &[i8(sample), u8(gain)]);
        }
    }
}

pub fn limiter(script: &mut Script) {
    for sum in (-2_049..=2_033).chain(edges::FAR_SUMS) {
        script.record(0x42, &[i32(sum)]);
    }
}

/// Every ms as long as the fade has few samples, where the step still moves, and some after that.
fn fade(script: &mut Script) {
    for rate in RATES {
        let mut ms = 0;
        while ms <= 65_535u32 {
            script.record(0x47, &[u16(ms as u16), u32(rate)]);
            let few = rate > 0 && ms as u64 * rate as u64 / 1_000 < 300;
            ms += if few { 1 } else { 17 };
        }
        script.record(0x47, &[u16(65_535), u32(rate)]);
    }
}

fn duty(script: &mut Script) {
    for period in HALVES {
        for sample in -128..=127 {
            script.record(0x46, &[i8(sample), u16(period)]);
        }
    }
}

fn db(script: &mut Script, floats: u32) {
    bytes(script, 0x51);
    special_floats(script);
    for step in 0..floats as u64 {
        let bits = ((step << 32) / floats as u64) as u32;
        script.record(0x50, &[u32(bits)]);
    }
    // Most bit patterns lie outside -48..0 or close to 0, so a tenth as many are spread over that range by value.
    for step in 0..floats / 10 {
        let decibels = -48.0 * step as f32 / (floats / 10) as f32;
        script.record(0x50, &[u32(decibels.to_bits())]);
    }
}

/// The edges and their neighbours, quarter decibels, and the floats around each change of the gain.
pub fn special_floats(script: &mut Script) {
    for bits in edges::FLOATS {
        for near in -4..=4 {
            script.record(0x50, &[u32(bits.wrapping_add_signed(near))]);
        }
    }
    for quarter in -240..=40 {
        script.record(0x50, &[u32((quarter as f32 / 4.0).to_bits())]);
    }
    for gain in 1..=255 {
        let bits = first_below(gain);
        for near in -4..=4 {
            script.record(0x50, &[u32(bits.wrapping_add_signed(near))]);
        }
    }
}

/// The negative float nearest to 0 whose gain is below the one given, found by halving: the gain falls as the bits rise.
fn first_below(gain: u8) -> u32 {
    let (mut least, mut most) = ((-0.0f32).to_bits(), (-48.0f32).to_bits());
    while least < most {
        let middle = least + (most - least) / 2;
        if db_to_q8(f32::from_bits(middle)) < gain {
            most = middle;
        } else {
            least = middle + 1;
        }
    }
    least
}

/// Also the crossfade, which is the same sum.
fn lerp(script: &mut Script) {
    for a in SAMPLES {
        for b in SAMPLES {
            for fraction in 0..=255 {
                script.record(0x41, &[i8(a), i8(b), u8(fraction)]);
                script.record(0x53, &[i8(a), i8(b), u8(fraction)]);
            }
        }
    }
}

/// Every upper half, which alone is read, over changing lower halves.
fn phase(script: &mut Script) {
    for upper in 0..=0xFFFFu32 {
        let lower = [0, 0xFFFF, 0x8000, upper][upper as usize % 4];
        script.record(0x52, &[u32(upper << 16 | lower)]);
    }
}

fn increment(script: &mut Script) {
    let all: Vec<u32> = WORDS.into_iter().chain(edges::powers()).collect();
    for hz in &all {
        for rate in &all {
            script.record(0x44, &[u32(*hz), u32(*rate)]);
        }
    }
}

pub fn clamp(script: &mut Script) {
    let powers = edges::powers().map(|power| power as i32);
    for sum in (-300..=300).chain(powers).chain(edges::FAR_SUMS) {
        script.record(0x54, &[i32(sum)]);
        script.record(0x54, &[i32(sum.wrapping_neg())]);
    }
}

fn mapper(script: &mut Script) {
    let ramp: Vec<i8> = (-128..=127).collect();
    let runs: [&[i8]; 6] = [
        &[],
        &[0; 8],
        &[127; 8],
        &[-128; 8],
        &[127, -128, 127, 1, -1],
        &ramp,
    ];
    for mode in 0..3 {
        for period in HALVES {
            for integrator in edges::INTEGRATORS {
                for samples in runs {
                    script.add(&mapper_record(mode, period, integrator, samples));
                }
            }
        }
    }
    longest_mappers(script);
}

/// As many samples as a line can hold.
pub fn longest_mappers(script: &mut Script) {
    let samples: Vec<i8> = (0..MOST_SAMPLES).map(|n| (n * n / 7) as i8).collect();
    for mode in 0..3 {
        script.add(&mapper_record(mode, 1_000, 0, &samples));
    }
}

/// At 1,000 Hz a phase has as many samples as ms; the other rates give few samples too, with a rest that is dropped.
fn envelope(script: &mut Script) {
    let sustains = [0, 1, 127, 128, 254, 255];
    let ticks = [0, 1, 2, 3, 4, 5, 6, 7, 8];
    envelopes(script, 1_000, &[0, 1, 2, 3, 4, 5, 6], &sustains, &ticks);
    for rate in [0, 1, 333, 500, 999, 1_001, 1_999, 65_538] {
        let ticks = [0, 1, 3, 5, 8, 13];
        envelopes(script, rate, &[0, 1, 3, 6], &[0, 128, 255], &ticks);
    }
    long_envelopes(script);
}

/// All combinations, each by its levels and by its state.
pub fn envelopes(script: &mut Script, rate: u32, times: &[u16], sustains: &[u8], ticks: &[u16]) {
    let count = times.len().pow(3) * sustains.len() * ticks.len().pow(2);
    for mut number in 0..count {
        let mut digit = |base: usize| {
            let digit = number % base;
            number /= base;
            digit
        };
        let envelope = Envelope {
            attack: times[digit(times.len())],
            decay: times[digit(times.len())],
            sustain: sustains[digit(sustains.len())],
            release: times[digit(times.len())],
            rate,
            before: ticks[digit(ticks.len())],
            after: ticks[digit(ticks.len())],
        };
        script.add(&envelope.record(0x48));
        script.add(&envelope.record(0x58));
    }
}

/// Phases of up to 4,294,967 samples, where the products are largest, and as many ticks as a record can ask for.
fn long_envelopes(script: &mut Script) {
    let times = [
        (65_535, 65_535),
        (65_535, 0),
        (0, 65_535),
        (900, 90),
        (90, 900),
    ];
    for (attack, decay) in times {
        for (release, sustain) in [(65_535, 0), (900, 255), (0, 128)] {
            let (before, after, rate) = (65_535, 65_535, 65_537);
            let envelope = Envelope {
                attack,
                decay,
                sustain,
                release,
                rate,
                before,
                after,
            };
            script.add(&envelope.record(0x48));
            script.add(&envelope.record(0x58));
        }
    }
}
