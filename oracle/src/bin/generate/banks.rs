//! Scripts about banks: setting them, searching them, looking payloads up.

use crate::bank::{self, Bank, ENTRY, HEADER, MOST_BYTES, MOST_ENTRIES};
use crate::draw::Draw;
use crate::script::{Script, WHOLE_STATE, lend, u8, u16, u32};

/// The sizes that the scripts of successive seeds go through.
const SIZES: u64 = 201;
const HIGHEST_RATE: u32 = 65_537;

pub fn print(script: &mut Script, seed: u64, count: u64) {
    let mut draw = script.draw(seed);
    let draw = &mut draw;
    open(script, draw);
    script.after_each = if script.present { WHOLE_STATE } else { &[] };
    for number in 0..count {
        let large = MOST_ENTRIES - draw.below(55) as usize;
        let size = match draw.one_in(12) {
            true => draw.pick(&[large, MOST_ENTRIES]),
            false => ((seed * count + number) % SIZES) as usize,
        };
        one_bank(script, draw, size);
        if draw.one_in(10) {
            // The bytes stay lent, and no bank is set.
            open(script, draw);
            let bank = Bank::draw(draw, 3, 0);
            look(script, draw, &bank, 3);
        }
    }
    script.after_each = &[];
}

fn open(script: &mut Script, draw: &mut Draw) {
    let fields = [
        u8(draw.below(4) as u8),
        u32(8_000),
        u16(1_000),
        u8(0),
        u8(255),
        u8(0),
    ];
    script.record(draw.open_code(), &fields);
}

fn one_bank(script: &mut Script, draw: &mut Draw, size: usize) {
    let tail = bank::tail(draw, size);
    let bank = Bank::draw(draw, size, tail);
    if draw.one_in(4) {
        // Too short by a byte or more, with whatever bank was set before.
        let short = 1 + draw.below(HEADER as u32 + (ENTRY * size) as u32);
        let kept = HEADER + ENTRY * size - draw.pick(&[1, 1, short]) as usize;
        script.add(&lend(&bank.bytes[..kept]));
        set(script, draw, bank.count());
        look(script, draw, &bank, 2);
    }
    script.add(&lend(&bank.bytes));
    if draw.one_in(4) {
        // The first count whose entries do not fit, and greater ones.
        let first = ((bank.bytes.len() - HEADER) / ENTRY + 1) as u16;
        let greater = first + draw.below(65_536 - first as u32) as u16;
        let count = draw.pick(&[first, greater, 65_535]);
        set(script, draw, count);
        look(script, draw, &bank, 2);
    }
    set(script, draw, bank.count());
    let looks = 6 + draw.below(14);
    look(script, draw, &bank, looks);
    lend_others(script, draw, &bank, tail);
    if draw.one_in(4) {
        script.record(0x30, &[]);
    }
}

/// Other bytes of the same length, which are searched as if they were the ones set, and bytes of another length.
fn lend_others(script: &mut Script, draw: &mut Draw, bank: &Bank, tail: usize) {
    if draw.one_in(2) {
        let other = Bank::draw(draw, bank.ids.len(), tail);
        script.add(&lend(&other.bytes));
        look(script, draw, bank, 3);
        look(script, draw, &other, 4);
    }
    if draw.one_in(2) {
        lend_another_length(script, draw, bank);
    }
}

/// Sets a bank over the lent bytes, at times with a rate that is refused.
fn set(script: &mut Script, draw: &mut Draw, count: u16) {
    let beyond = HIGHEST_RATE + 1 + draw.below(1_000_000);
    if draw.one_in(5) {
        let rate = draw.pick(&[HIGHEST_RATE + 1, beyond, u32::MAX]);
        script.record(0x11, &[u32(rate), u16(draw.pick(&[count, 65_535]))]);
    }
    let rate = draw.below(HIGHEST_RATE + 1);
    let rate = draw.pick(&[rate, 8_000, 0, HIGHEST_RATE]);
    script.record(0x11, &[u32(rate), u16(count)]);
}

/// Lends bytes of another length than was set, and looks things up there.
fn lend_another_length(script: &mut Script, draw: &mut Draw, bank: &Bank) {
    let length = bank.bytes.len();
    let any = draw.below(MOST_BYTES as u32 + 1) as usize;
    let other = draw.pick(&[
        length - 1,
        (length + 1).min(MOST_BYTES - 1),
        0,
        MOST_BYTES,
        any,
    ]);
    let mut bytes = bank.bytes.clone();
    bytes.resize(other, 0xA5);
    script.add(&lend(&bytes));
    look(script, draw, bank, 3);
}

fn look(script: &mut Script, draw: &mut Draw, bank: &Bank, count: u32) {
    for _ in 0..count {
        search(script, draw, bank);
        payload(script, draw, bank);
    }
}

pub fn search(script: &mut Script, draw: &mut Draw, bank: &Bank) {
    script.record(0x1A, &[u16(bank.any_id(draw))]);
}

pub fn payload(script: &mut Script, draw: &mut Draw, bank: &Bank) {
    let (offset, length) = match draw.below(3) {
        0 => (draw.u32(), draw.u16()),
        1 => bank::place_beyond(draw, bank.bytes.len()),
        _ => bank::place_within(draw, bank.bytes.len()),
    };
    script.record(0x1B, &[u32(offset), u16(length)]);
}
