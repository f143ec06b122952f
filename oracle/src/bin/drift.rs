//! How far the original's PolyBLEP phase drifts from Hz ÷ rate (document 02, T-12), in whole numbers, sample by sample.
//! `drift script` prints a replay record for each pair that is tried, which asks where its phase stands at the end, and records that sound one of them in
//! a box; `drift measure ANSWERS` runs the original for each, and holds the answers of a replay to it.

use oracle::synth::polyblep::phase_of;
use oracle::synth::{PolyBlepVoice, PolyBlepWaveform};
use std::{env, fs, process};

const SAMPLES: i64 = 10_000_000;
/// Of these the replay prints the last ones.
const PRINTED: i64 = 256;
/// Samples of a trial by which the pairs furthest off are found.
const SHORT: i64 = 2_000;
/// How many of those are run at length.
const FURTHEST: usize = 24;
/// In a box: so many times 2,048 mono frames, 1,024 stereo frames and 2,048 duties, with settings between them.
const ROUNDS: i64 = 1_954;
const FRAMES: i64 = ROUNDS * (2_048 + 1_024 + 2_048);
/// Every phase here is a whole number of 2^-40: a step is at least 1 / 65,537.
const UNITS: f32 = (1u64 << 40) as f32;

fn main() {
    let words: Vec<String> = env::args().skip(1).collect();
    let words: Vec<&str> = words.iter().map(String::as_str).collect();
    match words[..] {
        ["script"] => script(),
        ["measure", path] => measure(path),
        _ => fail("usage: drift script | drift measure ANSWERS"),
    }
}

fn fail(text: &str) -> ! {
    eprintln!("{text}");
    process::exit(2)
}

/// Hz and rate.
type Pair = (u32, u32);

fn in_reach((hz, rate): Pair) -> bool {
    hz <= 16_777_216 && (1..=65_537).contains(&rate) && 1_000 * u64::from(hz) < 499 * u64::from(rate)
}

/// The largest Hz in reach.
fn top(rate: u32) -> u32 {
    (499 * rate - 1) / 1_000
}

/// The limits of the domain, and where the step passes a power of 2: there its own rounding changes.
fn limits() -> Vec<Pair> {
    let rates: [u32; 16] = [1, 2, 3, 4, 5, 7, 1_000, 8_000, 11_025, 16_000, 22_050, 44_100, 48_000, 65_535, 65_536, 65_537];
    let mut found = vec![];
    for rate in rates {
        let quarter = rate.div_ceil(4);
        let third = rate / 3;
        for hz in [0, 1, 27, 28, 440, quarter.saturating_sub(1), quarter, third, third + 1, top(rate).saturating_sub(1), top(rate)] {
            if in_reach((hz, rate)) && !found.contains(&(hz, rate)) {
                found.push((hz, rate));
            }
        }
    }
    found
}

/// Of the eight largest Hz at every rate those that are furthest off after a short run.
fn furthest() -> Vec<Pair> {
    let mut found: Vec<(f64, Pair)> = vec![];
    for rate in 1..=65_537 {
        for hz in top(rate).saturating_sub(7)..=top(rate) {
            found.push((run((hz, rate), SHORT).last, (hz, rate)));
        }
    }
    found.sort_by(|a, b| b.0.total_cmp(&a.0));
    found.truncate(FURTHEST);
    found.into_iter().map(|(_, pair)| pair).collect()
}

/// All pairs, and the one that sounds in a box: the furthest.
fn pairs() -> (Vec<Pair>, Pair) {
    let found = furthest();
    let first = found[0];
    ([limits(), found].concat(), first)
}

struct Run {
    /// The worst ratio to n × 5 ÷ 2^26, and after how many samples.
    worst: f64,
    at: i64,
    /// The ratio at the end.
    last: f64,
    turns: i64,
    phase: f32,
}

/// Turns and phase beside n × Hz ÷ rate, in units of 2^-40 ÷ rate: a phase that is less than the one before it has completed a turn.
fn run((hz, rate): Pair, samples: i64) -> Run {
    let mut voice = PolyBlepVoice::new();
    voice.start(hz, 0, PolyBlepWaveform::Sawtooth, rate);
    let rate = i64::from(rate);
    let (mut off, mut before) = (0, 0);
    let mut result = Run { worst: 0.0, at: 0, last: 0.0, turns: 0, phase: 0.0 };
    for n in 1..=samples {
        voice.next_sample_f32().expect("a voice without end");
        let scaled = phase_of(&voice) * UNITS;
        assert!(scaled.trunc() == scaled, "a phase that is no whole number of units");
        let phase = scaled as i64;
        let turn = i64::from(phase < before);
        off += ((turn << 40) + phase - before) * rate - (i64::from(hz) << 40);
        before = phase;
        result.turns += turn;
        let part = (n * rate) << 14;
        assert!(off.abs() <= 3 * part, "{hz} Hz at {rate}, sample {n}: past n × 3 ÷ 2^26");
        let ratio = off.abs() as f64 / (5 * part) as f64;
        if ratio > result.worst {
            (result.worst, result.at) = (ratio, n);
        }
        result.last = ratio;
    }
    result.phase = phase_of(&voice);
    result
}

/// A sawtooth alone, without end: so many requests not printed, the last ones printed, then its state.
fn record((hz, rate): Pair) -> String {
    format!("6002{hz:08X}000001{rate:08X}{:06X}{PRINTED:04X}", SAMPLES - PRINTED)
}

fn script() {
    let (all, (hz, rate)) = pairs();
    all.iter().for_each(|pair| println!("{}", record(*pair)));
    println!("1001{rate:08X}03E800FF00\n16{hz:08X}000001");
    for round in 0..ROUNDS {
        println!("210800\n1700{:02X}\n2A0800\n18{:02X}\n200800", round % 256, round * 7 % 256);
    }
    println!("30");
}

/// The phase's bits in an answer: after so many printed samples comes the source's number, then its phase.
fn answered(line: &str, printed: i64) -> Option<u64> {
    let start = 4 * printed as usize + 16;
    u64::from_str_radix(line.get(start..start + 16)?, 16).ok()
}

fn same(pair: Pair, result: &Run, answer: Option<u64>) {
    if answer != Some(result.phase.to_bits().into()) {
        fail(&format!("drift: {} Hz at {}: the replay's phase is another", pair.0, pair.1));
    }
}

fn measure(path: &str) {
    let text = fs::read_to_string(path).unwrap_or_else(|error| fail(&format!("drift: {path}: {error}")));
    let mut lines = text.lines();
    let mut worst = (0.0, 0, (0, 0));
    let mut count = 0;
    let (all, boxed) = pairs();
    for pair in all {
        let result = run(pair, SAMPLES);
        lines.next();
        same(pair, &result, lines.next().and_then(|line| answered(line, PRINTED)));
        println!("{} Hz at {}: {} turns, worst {:.4} at sample {}, at the end {:.4}", pair.0, pair.1, result.turns, result.worst, result.at, result.last);
        if result.worst > worst.0 {
            worst = (result.worst, result.at, pair);
        }
        count += 1;
    }
    // the last line of the dump is the box's one voice
    same(boxed, &run(boxed, FRAMES), lines.next_back().and_then(|line| answered(line, 0)));
    println!("in a box: {} Hz at {}, {FRAMES} frames", boxed.0, boxed.1);
    let (ratio, at, (hz, rate)) = worst;
    println!("drift: {count} pairs, {SAMPLES} samples each: worst ratio to n × 5 ÷ 2^26 is {ratio:.5}, {hz} Hz at {rate}, sample {at}; all phases as the replay's");
}
