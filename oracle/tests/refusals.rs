//! What the replay program adds around the original's engine: the refusals that the original has not, in document 01's
//! order, and the bytes lent for each call. The program itself is run, on scripts.

mod common;

use common::*;
use oracle::bank::{BANK_MAGIC, BANK_VERSION, SoundBank};
use oracle::error::AudioError;

#[test]
fn opening() {
    let open = |voices: u8, rate: u32, period: u16| {
        last(&[&format!("10{voices:02X}{rate:08X}{period:04X}00FF00")])
    };
    assert_eq!(open(2, 65_537, 2), "00");
    assert_eq!(open(2, 65_538, 2), "02");
    assert_eq!(open(16, 8_000, 2), "00");
    assert_eq!(open(17, 8_000, 2), "01");
    assert_eq!(open(16, 8_000, 1), "03");
    // The first condition that holds gives the number.
    assert_eq!(open(17, 65_538, 1), "01");
    assert_eq!(open(16, 65_538, 1), "02");
    // Every number of voices up to 16 is the engine's own, as the dump says.
    for voices in 0..=16u8 {
        let dump = answers(&[&format!("10{voices:02X}00001F4003E800FF00"), "30"]);
        assert_eq!(dump.len(), 2 + voices as usize);
        assert_eq!(fields(&dump[1])[0], voices as i64);
    }
}

#[test]
fn a_refused_opening_leaves_the_old_engine() {
    let dumped = answers(&[OPEN, "181E", "30", "101100001F4003E802FF01", "30"]);
    assert_eq!(dumped[4], "01");
    assert_eq!(dumped[1..4], dumped[5..8]);
    // One that is accepted replaces it; what is lent stays.
    let replaced = answers(&[
        &lend(),
        OPEN,
        &set(),
        OPEN,
        &play(1, 9),
        &set(),
        &play(1, 9),
    ]);
    assert_eq!(replaced[2..], ["00", "06FF", "00", "0000"]);
}

#[test]
fn setting() {
    let set = |length: usize, rate: u32, count: u16| {
        let bytes = hex(&vec![0; length]);
        let set = format!("11{rate:08X}{count:04X}");
        last(&[OPEN, &format!("12{bytes}"), &set])
    };
    assert_eq!(set(26, 65_537, 1), "00");
    assert_eq!(set(26, 65_538, 1), "02");
    assert_eq!(set(25, 65_537, 1), "04");
    assert_eq!(set(25, 65_538, 1), "02");
    assert_eq!(set(26, 8_000, 2), "04");
    assert_eq!(set(9, 8_000, 0), "04");
    assert_eq!(set(10, 8_000, 0), "00");
    assert_eq!(set(4_090, 8_000, 255), "00");
    assert_eq!(set(4_096, 8_000, 65_535), "04");
    // With nothing lent at all.
    assert_eq!(last(&[OPEN, "1100001F400000"]), "04");
}

/// The same as the original's `parse`, where there is a header for it to read.
#[test]
fn a_truncated_bank_is_the_one_that_parse_refuses() {
    for count in 0..6u16 {
        for length in 10..100 {
            let mut bytes = vec![0; length];
            bytes[..4].copy_from_slice(&BANK_MAGIC);
            bytes[4] = BANK_VERSION;
            bytes[5] = count as u8;
            let parsed = SoundBank::parse(&bytes).err();
            let refused = parsed == Some(AudioError::TruncatedBank);
            let set = format!("1100001F40{count:04X}");
            let answer = last(&[OPEN, &format!("12{}", hex(&bytes)), &set]);
            assert_eq!(answer, if refused { "04" } else { "00" });
        }
    }
}

/// Each number, where all that come after it in the table hold too.
#[test]
fn the_order_of_a_play_request() {
    let (lend, set) = (lend(), set());
    // Both voices sound at priority 9.
    let full = [OPEN, &lend, &set, &play(1, 9), &play(3, 9)];
    let after = |records: &[&str]| last(&[&full[..], records].concat());
    assert_eq!(after(&["12", &play(8, 9)]), "05FF");
    assert_eq!(last(&["12", OPEN, &play(8, 9)]), "06FF");
    assert_eq!(after(&["12", &play(8, 10)]), "07FF");
    assert_eq!(after(&[&play(100, 10)]), "09FF");
    assert_eq!(after(&[&play(8, 10)]), "04FF");
    assert_eq!(after(&[&play(7, 10)]), "04FF");
    for id in [2, 4, 5, 6] {
        assert_eq!(after(&[&play(id, 10)]), "0AFF");
    }
    assert_eq!(after(&[&play(1, 10)]), "0000");
    // Entries up to id 8 alone: the search meets no kind that is none.
    let shorter = [OPEN, &lend, "1100001F400008"];
    assert_eq!(last(&[&shorter[..], &[&play(100, 0)]].concat()), "08FF");
    assert_eq!(last(&[&shorter[..], &[&play(8, 0)]].concat()), "04FF");
}

#[test]
fn the_order_of_a_fade() {
    let (lend, set) = (lend(), set());
    let one = "100100001F4003E800FF00";
    let after = |records: &[&str]| last(&[&[OPEN, &lend, &set], records].concat());
    assert_eq!(last(&[one, &fade(8)]), "05");
    assert_eq!(last(&[one, &lend, &set, "12", &fade(8)]), "05");
    assert_eq!(last(&["12", OPEN, &fade(8)]), "06");
    assert_eq!(after(&["12", &fade(8)]), "07");
    assert_eq!(after(&[&fade(100)]), "09");
    assert_eq!(after(&[&fade(8)]), "04");
    assert_eq!(after(&[&fade(2)]), "0A");
    assert_eq!(after(&[&fade(3)]), "00");
    // A fade does not ask for a free voice.
    assert_eq!(after(&[&play(1, 255), &play(1, 255), &fade(3)]), "00");
}

/// What a record changes in an engine of two voices that sounds a tone: the dumps before it and after it.
fn changes(record: &str) -> [Vec<Vec<i64>>; 2] {
    let lines = answers(&[OPEN, &lend(), &set(), &play(1, 9), "30", record, "30"]);
    let dump = |from: usize| lines[from..from + 3].iter().map(|l| fields(l)).collect();
    assert_eq!(lines.len(), 10);
    [dump(3), dump(7)]
}

/// Of a tone's line, the envelope's fields stand after the source's six.
const PHASE: usize = 10;

const RELEASE: i64 = 3;

#[test]
fn the_release_of_a_fade_stands_after_4_and_10() {
    for (id, number) in [
        (7, "04"),
        (8, "04"),
        (2, "0A"),
        (4, "0A"),
        (5, "0A"),
        (6, "0A"),
    ] {
        assert_eq!(last(&[OPEN, &lend(), &set(), &fade(id)]), number);
        let [before, mut after] = changes(&fade(id));
        assert_ne!(before[1][PHASE], RELEASE);
        assert_eq!(after[1][PHASE], RELEASE);
        // Count and length of the release: 0, and 4 ms at 8,000 Hz.
        assert_eq!(after[1][PHASE + 2..PHASE + 4], [0, 32]);
        for field in PHASE..PHASE + 4 {
            after[1][field] = before[1][field];
        }
        assert_eq!(before, after);
    }
    // An accepted one releases voice 0 alike, and starts voice 1 and the fade.
    let [before, after] = changes(&fade(3));
    assert_eq!(after[1][PHASE], RELEASE);
    assert_ne!(before[2], after[2]);
    assert_eq!(after[0][13..], [0, 2, 1]);
}

#[test]
fn other_refusals_change_nothing() {
    for record in [play(100, 9), play(7, 9), play(4, 9), fade(100), fade(9)] {
        let [before, after] = changes(&record);
        assert_eq!(before, after, "{record}");
    }
    // With bytes of another length lent.
    let (lend, set, play) = (lend(), set(), play(1, 9));
    for record in [&play, &fade(1)] {
        let lines = answers(&[OPEN, &lend, &set, &play, "30", "1200", record, "30"]);
        assert_eq!(lines[3..6], lines[7..10]);
    }
    // Setting a bank.
    for set in ["11000100020000", "1100001F400001"] {
        let lines = answers(&[OPEN, &lend, &self::set(), &play, "30", "1200", set, "30"]);
        assert_eq!(lines[3..6], lines[7..10]);
    }
}

#[test]
fn search_and_payload() {
    let (lend, set) = (lend(), set());
    let after = |records: &[&str]| last(&[&[OPEN, &lend, &set], records].concat());
    assert_eq!(
        after(&["1A0003"]),
        format!("000201C801B80096{LENGTH:08X}00000000")
    );
    // An entry search alone gives kinds that are not started.
    assert_eq!(after(&["1A0004"])[..4], *"0003");
    assert_eq!(after(&["1A0009"]), "09");
    assert_eq!(after(&["1100001F400008", "1A0009"]), "08");
    assert_eq!(after(&["12", "1A0003"]), "07");
    assert_eq!(last(&[OPEN, &lend, "1A0003"]), "06");
    // Entry 0's id and kind.
    assert_eq!(after(&["1B0000000A0003"]), "00010000");
    assert_eq!(after(&[&format!("1B{LENGTH:08X}0000")]), "00");
    assert_eq!(after(&[&format!("1B{LENGTH:08X}0001")]), "04");
    assert_eq!(after(&[&format!("1B{:08X}0000", LENGTH + 1)]), "04");
    assert_eq!(after(&[&format!("1B{:08X}0001", LENGTH - 1)]), "0000");
    assert_eq!(after(&["1BFFFFFFFFFFFF"]), "04");
    assert_eq!(after(&["12", "1B000000000000"]), "07");
    assert_eq!(last(&[OPEN, &lend, "1B000000000000"]), "06");
}

/// The bytes lent now are read, not those lent when the bank was set.
#[test]
fn bytes_lent_anew() {
    let mut other = bank_bytes();
    // Id 1 becomes 0, of kind 3, and id 3 a tone of 441 Hz.
    other[10] = 0;
    other[12] = 3;
    other[42 + 2] = 0;
    other[42 + 6] += 1;
    let other = format!("12{}", hex(&other));
    let (lend, set) = (lend(), set());
    let after = |records: &[&str]| last(&[&[OPEN, &lend, &set, &other], records].concat());
    assert_eq!(after(&[&play(0, 1)]), "0AFF");
    assert_eq!(after(&[&play(1, 1)]), "09FF");
    assert_eq!(after(&["1A0000"])[..4], *"0003");
    assert_eq!(after(&["1B0000000C0001"]), "0003");
    assert_eq!(after(&[&play(3, 1)]), "0000");
    let dump = answers(&[OPEN, &lend, &set, &play(1, 7), &other, &fade(3), "30"]);
    let voices = [&dump[5], &dump[6]].map(|line| fields(line));
    // The first voice was started by the old bytes and is left as it was, the other by the new ones.
    let step = |hz: u64| ((hz << 32) / 8_000) as i64;
    assert_eq!(voices[0][..3], [1, 0, step(440)]);
    assert_eq!(voices[1][..3], [1, 0, step(441)]);
    assert_eq!(voices.map(|voice| voice[voice.len() - 3]), [7, 128]);
}

/// Document 01: two silent voices, requests 3, 5, 5, 7: voices 0, 1, 0, 0; priorities 7 and 5 remain.
#[test]
fn requests() {
    let (lend, set) = (lend(), set());
    let plays = [3, 5, 5, 7].map(|priority| play(3, priority));
    let [a, b, c, d] = plays.each_ref().map(String::as_str);
    let lines = answers(&[OPEN, &lend, &set, a, b, c, d, "1C07", "1C05", "1D", "30"]);
    assert_eq!(lines[2..6], ["0000", "0001", "0000", "0000"]);
    assert_eq!(lines[6..9], ["0001", "05FF", "0102"]);
    let priorities = [&lines[10], &lines[11]].map(|line| {
        let voice = fields(line);
        voice[voice.len() - 3]
    });
    assert_eq!(priorities, [7, 5]);
    // FreeChannelOnly takes none.
    let free = "100200001F4003E800FF01";
    let lines = answers(&[free, &lend, &set, a, b, c, d, "1CFF"]);
    assert_eq!(lines[2..], ["0000", "0001", "05FF", "05FF", "05FF"]);
}
