//! Which end of a payload is wrong: document 02's T-06, in a box of the present rules beside document 01's.

mod common;

use common::*;

/// `OPEN` with the other code: the box of the present rules.
fn open_present() -> String {
    OPEN.replacen("10", "70", 1)
}

/// What document 01's box and one of the present rules answer to the records after the bank of the common module is set.
fn both(records: &[&str]) -> [String; 2] {
    [OPEN.to_string(), open_present()]
        .map(|open| last(&[&[&open[..], &lend(), &set()], records].concat()))
}

fn lookup(offset: u32, length: u16) -> [String; 2] {
    both(&[&format!("1B{offset:08X}{length:04X}")])
}

#[test]
fn the_numbers_of_a_lookup() {
    let top = u32::MAX;
    for (offset, length, present) in [
        (LENGTH, 1, "10"),
        (LENGTH, 65_535, "10"),
        (LENGTH - 1, 2, "10"),
        (0, LENGTH as u16 + 1, "10"),
        (0, 65_535, "10"),
        (LENGTH + 1, 0, "0F"),
        (LENGTH + 1, 1, "0F"),
        (LENGTH + 1, 65_535, "0F"),
        (0x8000_0000, 0, "0F"),
        (top, 0, "0F"),
        // Sums of 2^32, of 2^32 and the bank's length, and the greatest.
        (top, 1, "0F"),
        (top, LENGTH as u16 + 1, "0F"),
        (top, 65_535, "0F"),
        (top - 65_534, 65_535, "0F"),
    ] {
        assert_eq!(lookup(offset, length), ["04", present], "{offset} {length}");
    }
    assert_eq!(lookup(LENGTH, 0), ["00", "00"]);
    assert_eq!(lookup(LENGTH - 1, 1), ["0000", "0000"]);
    assert_eq!(lookup(10, 2), ["000100", "000100"]);
    assert_eq!(lookup(0, 0), ["00", "00"]);
}

/// A bank of one entry of that kind and place, id 1, set and lent.
fn bank(kind: u8, offset: u32, length: u16) -> [String; 2] {
    let mut bytes = vec![0; 10];
    bytes.extend(entry(1, kind, offset, length));
    [format!("12{}", hex(&bytes)), "1100001F400001".to_string()]
}

/// The bank's length.
const ONE: u32 = 26;

#[test]
fn the_numbers_of_a_start() {
    for kind in 0..6 {
        let carried = kind == 0 || kind == 2;
        for (offset, length, number) in [
            (ONE, 0, if carried { "00" } else { "0A" }),
            (ONE - 1, 1, if carried { "00" } else { "0A" }),
            (ONE, 1, "10"),
            (ONE - 1, 2, "10"),
            (0, ONE as u16 + 1, "10"),
            (ONE + 1, 0, "0F"),
            (u32::MAX, 65_535, "0F"),
            (u32::MAX, ONE as u16 + 1, "0F"),
        ] {
            let [lend, set] = bank(kind, offset, length);
            let after = |open: &str, record: &str| last(&[open, &lend, &set, record]);
            let old = match number {
                "0F" | "10" => "04",
                same => same,
            };
            let voice = if number == "00" { "00" } else { "FF" };
            for (open, number) in [(OPEN, old), (&open_present(), number)] {
                assert_eq!(after(open, &play(1, 9)), format!("{number}{voice}"));
                assert_eq!(after(open, &fade(1)), number);
                let plain = format!("620001{PAD}");
                assert_eq!(after(open, &plain), format!("{number}{voice}"));
            }
            // A search does not look at the payload.
            assert!(after(&open_present(), "1A0001").starts_with("00"));
        }
    }
}

/// Setting a bank uses 4 as before, and so does nothing else.
#[test]
fn setting_a_bank_keeps_its_number() {
    let open = open_present();
    assert_eq!(last(&[&open, "12", "1100001F400000"]), "04");
    let short = format!("12{}", hex(&[0; 25]));
    assert_eq!(last(&[&open, &short, "1100001F400001"]), "04");
    assert_eq!(last(&[&open, &short, "11000100020001"]), "02");
}

/// The order of the table: 5, 6, 7, 9 and 8 before the payload's numbers, and 10 after them.
#[test]
fn the_order() {
    let (open, lend, set) = (open_present(), lend(), set());
    let full = [&open, &lend, &set, &play(1, 9), &play(3, 9)];
    let after = |records: &[&str]| last(&[&full.map(String::as_str)[..], records].concat());
    for record in [play(7, 9), play(8, 9)] {
        assert_eq!(after(&[&record]), "05FF");
    }
    assert_eq!(after(&[&play(7, 10)]), "10FF");
    assert_eq!(after(&[&play(8, 10)]), "10FF");
    assert_eq!(after(&["12", &play(8, 10)]), "07FF");
    assert_eq!(after(&[&play(100, 10)]), "09FF");
    assert_eq!(after(&["1100001F400008", &play(100, 0)]), "08FF");
    assert_eq!(last(&[&open, &lend, &play(8, 0)]), "06FF");
    assert_eq!(last(&[&open, &lend, "1B000000FF0000"]), "06");
    assert_eq!(after(&["12", "1B000000FF0000"]), "07");
}

/// The state before and after a record in a box of two voices in which a tone sounds.
fn changes(setup: &[String; 2], record: &str) -> [Vec<Vec<i64>>; 2] {
    let [lend, set] = setup;
    let tone = "15000001B8000001";
    let lines = answers(&[&open_present(), lend, set, tone, "30", record, "30"]);
    let dump = |from: usize| lines[from..from + 3].iter().map(|l| fields(l)).collect();
    assert_eq!(lines.len(), 9);
    [dump(2), dump(6)]
}

/// Of a tone's line, the envelope's fields stand after the source's six.
const PHASE: usize = 10;
const RELEASE: i64 = 3;

#[test]
fn the_release_of_a_fade_stands_after_15_16_and_10() {
    for (kind, offset, length) in [
        (0, ONE + 1, 0),
        (0, u32::MAX, 1),
        (2, ONE, 1),
        (3, ONE + 1, 0),
        (4, 0, 27),
        (1, 0, 0),
        (5, ONE, 0),
    ] {
        let bank = bank(kind, offset, length);
        let [before, mut after] = changes(&bank, &fade(1));
        assert_ne!(before[1][PHASE], RELEASE);
        assert_eq!(after[1][PHASE], RELEASE);
        // Count and length of the release: 0, and 10 ms at 8,000 Hz.
        assert_eq!(after[1][PHASE + 2..PHASE + 4], [0, 80]);
        for field in PHASE..PHASE + 4 {
            after[1][field] = before[1][field];
        }
        assert_eq!(before, after);
        // A play request leaves all as it was.
        let [before, after] = changes(&bank, &play(1, 9));
        assert_eq!(before, after);
    }
}

/// 6, 7, 8 and 9 come before the release.
#[test]
fn the_refusals_before_it_leave_all_as_it_was() {
    let beyond = bank(0, u32::MAX, 1);
    let [before, after] = changes(&beyond, &fade(2));
    assert_eq!(before, after);
    let strange = bank(6, u32::MAX, 1);
    let [before, after] = changes(&strange, &fade(1));
    assert_eq!(before, after);
    let open = open_present();
    let [lend, set] = &beyond;
    let tone = "15000001B8000001";
    let lines = answers(&[&open, lend, set, tone, "30", "12", &fade(1), "30"]);
    assert_eq!(lines[5], "07");
    assert_eq!(lines[2..5], lines[6..9]);
    let lines = answers(&[&open, lend, tone, "30", &fade(1), "30"]);
    assert_eq!(lines[4], "06");
    assert_eq!(lines[1..4], lines[5..8]);
}
