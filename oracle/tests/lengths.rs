//! Lengths with what is left over, which the original has not: document 02's T-10 as the program reads it.

mod common;

use common::*;

fn length(ms: u16, rate: u32) -> String {
    last(&[&format!("84{ms:04X}{rate:08X}")])
}

fn carrying(ms: u16, rate: u32, carried: u32) -> String {
    last(&[&format!("85{ms:04X}{rate:08X}{carried:08X}")])
}

fn answer(samples: u32, remainder: u16) -> String {
    format!("00{samples:08X}{remainder:04X}")
}

#[test]
fn samples_and_remainder() {
    assert_eq!(length(3_019, 22_050), answer(66_568, 950));
    assert_eq!(carrying(3_019, 22_050, 950), answer(66_569, 900));
    assert_eq!(length(0, 0), answer(0, 0));
    assert_eq!(length(65_535, 65_537), answer(4_294_967, 295));
    assert_eq!(carrying(65_535, 65_537, u32::MAX), answer(8_589_934, 590));
    for rate in [65_538, u32::MAX] {
        assert_eq!(length(1, rate), "02000000000000");
        assert_eq!(carrying(1, rate, 1), "02000000000000");
    }
}

#[test]
fn the_parts_make_the_whole() {
    for ms in (0..=65_535).step_by(997) {
        for (rate, carried) in [(22_050, 0), (44_100, 999), (65_537, u32::MAX)] {
            let line = carrying(ms, rate, carried);
            let samples = u64::from_str_radix(&line[2..10], 16).unwrap();
            let remainder = u64::from_str_radix(&line[10..], 16).unwrap();
            assert!(remainder < 1_000);
            let whole = ms as u64 * rate as u64 + carried as u64;
            assert_eq!(1_000 * samples + remainder, whole);
        }
    }
}

#[test]
fn bad_lines() {
    for record in [
        "8400010000",
        "840001000056220",
        "84000100005622FF",
        "850001000056220000",
    ] {
        assert_eq!(last(&[record, "4500"]), "FFFF", "{record}");
    }
}
