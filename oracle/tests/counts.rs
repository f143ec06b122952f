//! How often a signal would be turned away: document 02's T-13, which the program finds by trying every list.

mod common;

use common::*;

fn record(fields: [u8; 4]) -> String {
    format!("86{}", hex(&fields))
}

fn answer(refused: u64, accepted: u64) -> String {
    format!("00{refused:08X}{accepted:08X}")
}

fn count(voices: u8, priorities: u8, requests: u8, priority: u8) -> String {
    last(&[&record([voices, priorities, requests, priority])])
}

#[test]
fn worked_out() {
    // No voice: all are refused.
    assert_eq!(count(0, 3, 2, 2), answer(9, 0));
    assert_eq!(count(0, 1, 0, 0), answer(1, 0));
    // The empty list leaves a free voice.
    assert_eq!(count(1, 4, 0, 3), answer(0, 1));
    // One voice, two lists of one request: 1 is refused after 1, 0 after both.
    assert_eq!(count(1, 2, 1, 1), answer(1, 1));
    assert_eq!(count(1, 2, 1, 0), answer(2, 0));
    // Two voices: 1 is refused where two of three requests are 1s: 011, 101, 110 and 111.
    assert_eq!(count(2, 2, 3, 1), answer(4, 4));
    assert_eq!(count(2, 2, 3, 0), answer(8, 0));
    // Equal ones take no voice.
    assert_eq!(count(8, 1, 8, 0), answer(1, 0));
    assert_eq!(count(9, 1, 8, 0), answer(0, 1));
    assert_eq!(count(16, 4, 8, 3), answer(0, 65_536));
}

/// How many ways there are to choose so many of `all`.
fn choices(all: u32, chosen: u32) -> u64 {
    (0..chosen).fold(1, |ways, place| {
        ways * (all - place) as u64 / (place + 1) as u64
    })
}

/// In every list after which p is refused at least N requests are of priority p or above: those hold the voices.
fn refused(voices: u32, priorities: u64, requests: u32, priority: u64) -> u64 {
    let high = |count| {
        let above = (priorities - priority).pow(count);
        choices(requests, count) * above * priority.pow(requests - count)
    };
    (voices..=requests).map(high).sum()
}

/// Every count in range, against that sum.
#[test]
fn all_in_range_as_a_sum() {
    let mut asked = vec![];
    for voices in 0..=16 {
        for priorities in 1..=4 {
            for requests in 0..=8 {
                let of = |priority| [voices, priorities, requests, priority];
                asked.extend((0..priorities).map(of));
            }
        }
    }
    assert_eq!(asked.len(), 1_530);
    let script: Vec<String> = asked.iter().map(|fields| record(*fields)).collect();
    let script: Vec<&str> = script.iter().map(String::as_str).collect();
    let given = answers(&script);
    assert_eq!(given.len(), asked.len());
    for (fields, line) in asked.into_iter().zip(given) {
        let [voices, priorities, requests, priority] = fields.map(u32::from);
        let refused = refused(voices, priorities as u64, requests, priority as u64);
        let lists = (priorities as u64).pow(requests);
        assert_eq!(line, answer(refused, lists - refused), "{fields:?}");
    }
}

#[test]
fn refusals() {
    for fields in [
        [2, 0, 3, 0],
        [2, 5, 3, 0],
        [2, 255, 3, 0],
        [2, 4, 9, 0],
        [2, 4, 255, 0],
        [17, 4, 3, 0],
        [255, 4, 3, 0],
        [2, 4, 3, 4],
        [2, 1, 3, 1],
        [2, 4, 3, 255],
        [17, 0, 9, 0],
    ] {
        let [voices, priorities, requests, priority] = fields;
        let line = count(voices, priorities, requests, priority);
        assert_eq!(line, "160000000000000000", "{fields:?}");
    }
}

/// An answer asked for again is the same one; no box is opened by it.
#[test]
fn asked_twice() {
    let asked = record([2, 3, 4, 1]);
    let lines = answers(&[&asked, &asked, "30"]);
    assert_eq!(lines[0], lines[1]);
    assert_eq!(lines[2], "FFFF");
    assert_eq!(last(&["8602030400", &asked]), lines[0]);
}

#[test]
fn bad_lines() {
    for record in ["86", "86020304", "8602030401FF", "860203040"] {
        assert_eq!(last(&[record, "4500"]), "FFFF", "{record}");
    }
}
