//! Scripts with every short order of calls, of each order a box of the present rules of its own: calls by which ages change, with the ranks after each call and
//! who would go next, and calls by which requests wait and go in, with the line and the kept refusal.

use crate::bank::{self, HEADER};
use crate::script::{Field, Script, lend, u8, u16, u32};

/// An FM sound without end, and a tone of five samples at 1,000 Hz.
const ENDLESS: u16 = 1;
const SHORT: u16 = 2;

/// By the first call for frames every fade has ended; voice 0 then has the rest of the tone, which by the second has ended too.
const FRAMES: u16 = 3;

type Call = fn(&mut Script);

const AGING: [Call; 10] = [
    |script| play(script, ENDLESS, 1),
    |script| play(script, SHORT, 2),
    |script| script.record(0x15, &[u32(440), u16(0), u8(0)]),
    |script| fade(script, 0x14, ENDLESS, 0),
    |script| fade(script, 0x14, SHORT, FRAMES),
    |script| fade(script, 0x73, ENDLESS, 0),
    |script| fade(script, 0x73, SHORT, FRAMES),
    |script| script.record(0x21, &[u16(FRAMES)]),
    |script| script.record(0x19, &[]),
    set,
];

/// Attack, decay, sustain and release: none, so that a release is over at once.
const ENVELOPE: [Field; 4] = [(0, 2), (0, 2), (100, 1), (0, 2)];

/// Two of equal priority, one above them, and one of that priority that is dropped: no entry has its id.
const WAITING: [Call; 10] = [
    |script| leave(script, 1, ENDLESS, 1),
    |script| leave(script, 2, SHORT, 1),
    |script| leave(script, 3, ENDLESS, 2),
    |script| leave(script, 4, SHORT + 1, 2),
    |script| script.record(0x75, &[u16(1)]),
    |script| play(script, ENDLESS, 1),
    |script| fade(script, 0x14, SHORT, FRAMES),
    |script| fade(script, 0x73, SHORT, 1),
    |script| script.record(0x21, &[u16(FRAMES)]),
    |script| script.record(0x19, &[]),
];

/// All orders of so many calls, on one to four voices, silent at first for the seeds 1 to 4 and all started for the next four.
pub fn print(script: &mut Script, seed: u64, count: u64) {
    every(script, 1, seed, count, &AGING, |script| {
        script.record(0x7A, &[]);
        script.record(0x1C, &[u8(255)]);
    });
}

/// The same on none to three.
pub fn print_waiting(script: &mut Script, seed: u64, count: u64) {
    every(script, 0, seed, count, &WAITING, |script| {
        for code in [0x7A, 0x76, 0x78] {
            script.record(code, &[]);
        }
    });
}

fn every(script: &mut Script, fewest: u64, seed: u64, count: u64, calls: &[Call], after: Call) {
    let voices = fewest + (seed - 1) % 4;
    let started = if seed > 4 { voices } else { 0 };
    let mut bytes = vec![0; HEADER];
    bank::push(&mut bytes, ENDLESS, [2, 0, 200, 0], [440, 150], (0, 0));
    bank::push(&mut bytes, SHORT, [0, 0, 200, 0], [440, 5], (0, 0));
    script.add(&lend(&bytes));
    for number in 0..calls.len().pow(count as u32) {
        open(script, voices as u8);
        for _ in 0..started {
            play(script, ENDLESS, 1);
        }
        let mut rest = number;
        for _ in 0..count {
            calls[rest % calls.len()](script);
            rest /= calls.len();
            after(script);
        }
    }
}

fn open(script: &mut Script, voices: u8) {
    let rest = [u32(1_000), u16(1_000), u8(0), u8(255), u8(0)];
    script.record(0x70, &[&[u8(voices)], &rest[..]].concat());
    set(script);
}

fn set(script: &mut Script) {
    script.record(0x11, &[u32(1_000), u16(2)]);
}

fn play(script: &mut Script, id: u16, priority: u8) {
    script.record(0x13, &request(id, priority));
}

fn leave(script: &mut Script, label: u16, id: u16, priority: u8) {
    let fields = [&[u16(label), u8(0)], &request(id, priority)[..]].concat();
    script.record(0x74, &fields);
}

fn request(id: u16, priority: u8) -> Vec<Field> {
    [&[u16(id)], &ENVELOPE[..], &[u8(priority)]].concat()
}

fn fade(script: &mut Script, code: u8, id: u16, ms: u16) {
    script.record(code, &[&[u16(id), u16(ms)], &ENVELOPE[..]].concat());
}
