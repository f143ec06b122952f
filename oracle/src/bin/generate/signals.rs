//! The evacuation pattern and its reader: records 80 and 81.

use crate::draw::Draw;
use crate::script::{Line, Script, record, u8, u16, u32};

/// In milliseconds, on first.
const PHASES: [u64; 6] = [500, 500, 500, 500, 500, 1_500];

/// Those at which the two open or just do not, and rates with every rest that a phase can drop.
const RATES: [u32; 20] = [
    0,
    1,
    19,
    20,
    21,
    22,
    23,
    33,
    100,
    999,
    1_000,
    1_001,
    8_000,
    11_025,
    22_050,
    44_100,
    65_535,
    65_537,
    65_538,
    u32::MAX,
];

/// As many bytes as a line can hold after a rate.
const MOST_BYTES: usize = 4_092;

const MOST_SAMPLES: u32 = 2_048;

pub fn pattern(rate: u32, first: u32, samples: u16) -> Line {
    record(0x80, &[u32(rate), u32(first), u16(samples)])
}

fn reader(rate: u32, recording: &[u8]) -> Line {
    let mut fields = vec![u32(rate)];
    fields.extend(recording.iter().take(MOST_BYTES).map(|byte| u8(*byte)));
    record(0x81, &fields)
}

/// How many samples each phase has.
fn lengths(rate: u32) -> [usize; 6] {
    PHASES.map(|ms| (ms * rate as u64 / 1_000) as usize)
}

/// Phases of these lengths, one after another, on first.
fn spelt(lengths: &[usize]) -> Vec<u8> {
    let phase = |(place, length): (usize, &usize)| vec![1 - place as u8 % 2; *length];
    lengths.iter().enumerate().flat_map(phase).collect()
}

/// Six samples around the start of every phase, of the first cycles and of the last before 2^32 samples, which a run goes past.
fn around_phases(script: &mut Script, rate: u32) {
    let lengths = lengths(rate);
    let cycle: usize = lengths.iter().sum::<usize>().max(1);
    for turn in [0, 1, u32::MAX as usize / cycle] {
        let mut start = turn * cycle;
        for length in lengths {
            script.add(&pattern(rate, start.saturating_sub(3) as u32, 6));
            start += length;
        }
    }
    script.add(&pattern(rate, u32::MAX, 6));
    script.add(&pattern(rate, 7, 0));
}

/// Every rate of the list: around its phases, and the longest runs over the first cycle.
pub fn patterns(script: &mut Script) {
    for rate in RATES {
        around_phases(script, rate);
        for part in 0..10 {
            script.add(&pattern(rate, part * MOST_SAMPLES, MOST_SAMPLES as u16));
        }
    }
    for rate in 2..600 {
        script.add(&pattern(rate, 0, MOST_SAMPLES as u16));
    }
}

/// Recordings that are so many whole cycles or just not: each phase at the bounds of its tenth and a sample outside.
fn near_recordings(script: &mut Script, rate: u32, turns: usize) {
    let own = lengths(rate).repeat(turns);
    script.add(&reader(rate, &spelt(&own)));
    for place in 0..own.len() {
        let nominal = PHASES[place % 6] * rate as u64;
        let (least, most) = ((9 * nominal).div_ceil(10_000), 11 * nominal / 10_000);
        for length in [least.saturating_sub(1), least, most, most + 1] {
            let mut other = own.clone();
            other[place] = length as usize;
            script.add(&reader(rate, &spelt(&other)));
        }
    }
}

/// Cut at each place, begun at each place, with each byte once 2 and once turned round.
fn spoilt_recordings(script: &mut Script, rate: u32) {
    let whole = spelt(&lengths(rate).repeat(2));
    for place in 0..whole.len() {
        script.add(&reader(rate, &whole[..place]));
        script.add(&reader(rate, &whole[place..]));
        for byte in [2, 255, 1 - whole[place]] {
            let mut other = whole.clone();
            other[place] = byte;
            script.add(&reader(rate, &other));
        }
    }
}

/// Recordings that no rate accepts, and two that some rates do.
fn same_at_every_rate(script: &mut Script) {
    for rate in RATES {
        for recording in [&[][..], &[0], &[1], &[2]] {
            script.add(&reader(rate, recording));
        }
        for made in [20, 21] {
            script.add(&reader(rate, &spelt(&lengths(made))));
        }
    }
}

/// Up to 1,023 samples a second a whole cycle fits in a line.
pub fn readers(script: &mut Script) {
    same_at_every_rate(script);
    script.add(&reader(20, &[1; MOST_BYTES]));
    for rate in (20..60).chain([100, 333, 999, 1_000, 1_001, 1_023]) {
        for turns in 1..=3 {
            near_recordings(script, rate, turns);
        }
    }
    for rate in [20, 21, 33] {
        spoilt_recordings(script, rate);
    }
}

/// For the recorded list.
pub fn recorded(script: &mut Script) {
    for rate in [0, 19, 20, 21, 22_050, 65_537, 65_538, u32::MAX] {
        around_phases(script, rate);
    }
    script.add(&pattern(20, 0, 240));
    script.add(&pattern(1_000, 1_900, MOST_SAMPLES as u16));
    same_at_every_rate(script);
    script.add(&reader(20, &[1; MOST_BYTES]));
    script.add(&reader(1_023, &spelt(&lengths(1_023))));
    near_recordings(script, 20, 2);
    near_recordings(script, 23, 1);
    let whole = spelt(&lengths(20).repeat(2));
    for place in (0..whole.len()).step_by(5) {
        script.add(&reader(20, &whole[..place]));
        script.add(&reader(20, &whole[place..]));
    }
    let mut above = whole;
    above[3] = 2;
    script.add(&reader(20, &above));
}

pub fn any_pattern(draw: &mut Draw) -> Line {
    let (rate, first) = (draw.rate(), draw.u32());
    pattern(rate, first, draw.size(MOST_SAMPLES) as u16)
}

/// Phases of about the right lengths at a low rate, so that about half of the recordings are accepted; at times one byte of it is any.
pub fn any_reader(draw: &mut Draw) -> Line {
    let rate = match draw.one_in(4) {
        true => draw.rate(),
        false => 18 + draw.below(30),
    };
    let turns = draw.pick(&[0, 1, 1, 1, 2, 3]);
    let mut phases = lengths(rate.min(100)).repeat(turns);
    for length in &mut phases {
        if draw.one_in(8) {
            *length = (*length + draw.below(4) as usize).saturating_sub(2);
        }
    }
    if draw.one_in(8) {
        phases.truncate(draw.below(phases.len() as u32 + 1) as usize);
    }
    let mut recording = spelt(&phases);
    if draw.one_in(8) && !recording.is_empty() {
        let place = draw.below(recording.len() as u32) as usize;
        recording[place] = draw.u8();
    }
    reader(rate, &recording)
}
