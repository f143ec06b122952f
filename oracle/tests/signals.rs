//! The evacuation pattern and its reader, which the original has not: document 02's T-01 as the program reads it.

mod common;

use common::*;

/// A pattern at 20 samples a second has phases of 10 samples and a last one of 30.
fn cycle() -> String {
    let (on, off) = ("01".repeat(10), "00".repeat(10));
    [&on, &off, &on, &off, &on, &off.repeat(3)]
        .map(String::as_str)
        .concat()
}

fn pattern(rate: u32, first: u32, samples: u16) -> Vec<String> {
    answers(&[&format!("80{rate:08X}{first:08X}{samples:04X}")])
}

fn reader(rate: u32, recording: &str) -> String {
    last(&[&format!("81{rate:08X}{recording}")])
}

#[test]
fn a_cycle_and_the_next() {
    assert_eq!(pattern(20, 0, 160), ["00", &cycle().repeat(2)]);
    assert_eq!(pattern(20, 75, 10), ["00", "00000000000101010101"]);
    assert_eq!(pattern(20, 7, 0), ["00", ""]);
    // 2^32 − 1 is 15 modulo 80: the run goes on past it.
    assert_eq!(pattern(20, u32::MAX, 6), ["00", "000000000001"]);
    // At 65,537 a phase of 32,768.5 samples has 32,768.
    assert_eq!(pattern(65_537, 32_767, 2), ["00", "0100"]);
}

#[test]
fn whole_cycles_alone_are_accepted() {
    for turns in 1..=3 {
        assert_eq!(reader(20, &cycle().repeat(turns)), "0001");
    }
    assert_eq!(reader(20, ""), "0000");
    assert_eq!(reader(20, &cycle()[..158]), "0001"); // the last phase may have 27 to 33 samples
    assert_eq!(reader(20, &cycle()[..152]), "0000");
    assert_eq!(reader(20, &cycle()[..100]), "0000");
    assert_eq!(reader(20, &cycle()[2..]), "0001"); // and the first 9 to 11
    assert_eq!(reader(20, &cycle()[4..]), "0000");
    assert_eq!(reader(20, &cycle().replacen("01", "02", 1)), "0000");
    assert_eq!(reader(40, &cycle()), "0000");
}

#[test]
fn rates() {
    for (rate, number) in [(0, "0C"), (19, "0C"), (65_538, "02"), (u32::MAX, "02")] {
        assert_eq!(pattern(rate, 0, 9), [number]);
        assert_eq!(reader(rate, &cycle()), format!("{number}00"));
    }
    assert_eq!(reader(65_537, &cycle()), "0000");
}

#[test]
fn bad_lines() {
    let rate = "00000014";
    for record in [
        format!("80{rate}000000000801"),
        format!("80{rate}0000000000"),
        format!("80{rate}00000000000000"),
        "81000014".to_string(),
        format!("81{rate}0"),
        format!("81{rate}{}", "01".repeat(4_093)),
    ] {
        assert_eq!(last(&[&record, "4500"]), "FFFF", "{record}");
    }
    assert_eq!(last(&[&format!("81{rate}{}", "01".repeat(4_092))]), "0000");
}
