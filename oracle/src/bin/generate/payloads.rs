//! Scripts about where a payload lies: an entry for each offset and length around an edge, looked up and started in boxes of both documents.

use crate::bank::{self, ENTRY, HEADER, MOST_BYTES, lengths, offsets};
use crate::draw::Draw;
use crate::script::{Field, Script, WHOLE_STATE, lend, u8, u16, u32};

/// Every kind, the ones that are started in between.
const KINDS: [u8; 6] = [0, 3, 2, 1, 4, 5];

/// Attack, decay, sustain, release.
const ENVELOPE: [Field; 4] = [(2, 2), (3, 2), (100, 1), (4, 2)];

/// An offset and a length.
type Place = (u32, u16);

/// A number of banks, each in a box of either document.
pub fn print(script: &mut Script, seed: u64, count: u64) {
    let mut draw = script.draw(seed);
    let voices = [2, 2, 3, 16, 1, 0, 2, 4][seed as usize % 8];
    for number in 0..count {
        let entries = all_entries();
        let most = MOST_BYTES - HEADER - ENTRY * entries;
        let any = draw.below(most as u32 + 1) as usize;
        let tail = [0, most, draw.pick(&[1, 15, 16, any])][(seed + number) as usize % 3];
        let length = (HEADER + ENTRY * entries + tail) as u32;
        let places = places(length);
        for code in codes(&mut draw) {
            open(script, code, voices);
            script.after_each = WHOLE_STATE;
            every(script, &mut draw, &places, tail, seed as usize);
            script.after_each = &[];
        }
    }
}

/// For the recorded list: in both boxes every lookup, and the starts beside the bank's end.
pub fn recorded(script: &mut Script) {
    let tail = 3;
    let length = (HEADER + ENTRY * all_entries() + tail) as u32;
    let all = places(length);
    let near = |place: &&Place| (length - 1..=length + 1).contains(&place.0) || place.0 == u32::MAX;
    let starts: Vec<Place> = all.iter().filter(near).copied().collect();
    let draw = &mut script.draw(1);
    for code in [0x10, 0x70] {
        open(script, code, 2);
        lend_and_set(script, draw, &all, tail, 0);
        for place in &all {
            look_up(script, *place);
        }
        for place in &starts {
            let id = all.iter().position(|found| found == place);
            start(script, id.expect("a place of the list") as u16);
            script.record(0x30, &[]);
        }
        before_a_start(script, all.len());
    }
}

fn codes(draw: &mut Draw) -> [u8; 2] {
    draw.pick(&[[0x10, 0x70], [0x70, 0x10]])
}

/// As many as there are at every length of a bank.
fn all_entries() -> usize {
    places(MOST_BYTES as u32).len()
}

/// Every offset and length around an edge of a bank of that length.
fn places(bank: u32) -> Vec<Place> {
    let of = |offset| lengths(bank, offset).map(|length| (offset, length));
    offsets(bank).into_iter().flat_map(of).collect()
}

/// A box, and starts before its bank is set: number 6.
fn open(script: &mut Script, code: u8, voices: u8) {
    let rest = [u32(8_000), u16(1_000), u8(0), u8(255), u8(0)];
    script.record(code, &[&[u8(voices)], &rest[..]].concat());
    both_starts(script, 0);
}

/// The entries' ids are their places in the list; the kinds go round from `turn` on.
fn lend_and_set(script: &mut Script, draw: &mut Draw, places: &[Place], tail: usize, turn: usize) {
    let mut bytes: Vec<u8> = (0..HEADER).map(|_| draw.u8()).collect();
    for (id, place) in places.iter().enumerate() {
        let kind = KINDS[(id + turn) % KINDS.len()];
        bank::push(&mut bytes, id as u16, [kind, 1, 200, 0], [440, 150], *place);
    }
    bytes.extend((0..tail).map(|_| draw.u8()));
    script.add(&lend(&bytes));
    script.record(0x11, &[u32(8_000), u16(places.len() as u16)]);
}

fn every(script: &mut Script, draw: &mut Draw, places: &[Place], tail: usize, turn: usize) {
    lend_and_set(script, draw, places, tail, turn);
    for (id, place) in places.iter().enumerate() {
        look_up(script, *place);
        script.record(0x1A, &[u16(id as u16)]);
        start(script, id as u16);
    }
    before_a_start(script, places.len());
}

fn look_up(script: &mut Script, (offset, length): Place) {
    script.record(0x1B, &[u32(offset), u16(length)]);
}

/// A tone on voice 0, then a play request and a fade of each call: the old fade's release of voice 0 is seen whether or not it is refused.
fn start(script: &mut Script, id: u16) {
    script.record(0x19, &[]);
    script.record(0x15, &[u32(440), u16(0), u8(1)]);
    play(script, id);
    fades(script, id);
}

fn play(script: &mut Script, id: u16) {
    script.record(0x13, &[&[u16(id)], &ENVELOPE[..], &[u8(9)]].concat());
}

/// The one that keeps sounding first: refused it changes nothing.
fn fades(script: &mut Script, id: u16) {
    let codes: &[u8] = if script.is_present() {
        &[0x73, 0x14]
    } else {
        &[0x14]
    };
    for code in codes {
        script.record(*code, &[&[u16(id), u16(20)], &ENVELOPE[..]].concat());
    }
}

/// The other refusals that come before an entry start: 8, and 7 and 9 for an entry whose payload is beyond the bank too.
fn before_a_start(script: &mut Script, count: usize) {
    for id in [count as u16, 65_535] {
        both_starts(script, id);
    }
    script.add(&lend(&[0; 9]));
    both_starts(script, count as u16 - 1);
    // The search for the last one meets a kind above 5 first.
    let mut bytes = vec![0; HEADER];
    for (id, kind) in [0, 6, 0].into_iter().enumerate() {
        bank::push(
            &mut bytes,
            id as u16,
            [kind, 1, 200, 0],
            [440, 150],
            (u32::MAX, 1),
        );
    }
    script.add(&lend(&bytes));
    script.record(0x11, &[u32(8_000), u16(3)]);
    both_starts(script, 2);
}

fn both_starts(script: &mut Script, id: u16) {
    script.record(0x15, &[u32(440), u16(0), u8(1)]);
    play(script, id);
    fades(script, id);
    script.record(0x30, &[]);
}
