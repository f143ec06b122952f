//! A fade that keeps sounding: document 02's T-09, by record 73, beside the fade of old, record 14.

mod common;

use common::*;

/// A box of the present rules of so many voices, with the bank of `common` set.
fn ready(voices: u8) -> [String; 3] {
    [
        format!("70{voices:02X}00001F4003E800FF00"),
        format!("12{}", hex(&bank_bytes())),
        format!("1100001F40{COUNT:04X}"),
    ]
}

/// A fade of either call.
fn fade(code: &str, id: u16, ms: u16) -> String {
    format!("{code}{id:04X}{ms:04X}{PAD}")
}

/// An FM sound, which never ends.
const FM: u16 = 3;

fn play(priority: u8) -> String {
    format!("13{FM:04X}{PAD}{priority:02X}")
}

/// What a box of so many voices answers to records, the three of `ready` apart.
fn told(voices: u8, records: &[&str]) -> Vec<String> {
    let ready = ready(voices);
    let ready = ready.each_ref().map(String::as_str);
    answers(&[&ready[..], records].concat()).split_off(2)
}

/// The samples of the last of the records, which is a 21.
fn samples(records: &[&str]) -> Vec<u8> {
    let line = told(2, records).pop().unwrap();
    let bytes = line.as_bytes();
    let digits = |at: usize| u8::from_str_radix(str::from_utf8(&bytes[at..at + 2]).unwrap(), 16);
    (4..bytes.len())
        .step_by(2)
        .map(|at| digits(at).unwrap())
        .collect()
}

/// From its end on, frame by frame, what the sound would have given by itself; the fade of old falls silent there.
#[test]
fn the_sound_goes_on() {
    let alone = samples(&[&play(128), "210200"]);
    for (ms, count) in [(0, 1), (1, 8), (5, 37)] {
        let on = samples(&[&fade("73", FM, ms), "210200"]);
        assert_eq!(on[count - 1..], alone[count - 1..], "{ms}");
        let old = samples(&[&fade("14", FM, ms), "210200"]);
        assert_eq!(old[..count - 1], on[..count - 1], "{ms}");
        assert!(old[count - 1..].iter().all(|sample| *sample == 0), "{ms}");
    }
}

/// "being turned down changes nothing at all", where the old call releases voice 0 at 10, 15 and 16.
#[test]
fn a_refusal_changes_nothing() {
    for (id, number, releases) in [
        (2, "0A", true),
        (7, "10", true),
        (8, "10", true),
        (9, "09", false),
    ] {
        for (code, released) in [("73", false), ("14", releases)] {
            let told = told(
                2,
                &[&play(9), "210010", "30", &fade(code, id, 5), "30", "7A"],
            );
            assert_eq!(told[5], number, "{code} {id}");
            assert_eq!(told[2..5] != told[6..9], released, "{code} {id}");
            assert_eq!(told[9], "00FF");
        }
    }
}

#[test]
fn the_other_refusals() {
    let on = fade("73", FM, 5);
    for voices in [0, 1] {
        assert_eq!(told(voices, &[&on])[0], "05");
    }
    let [open, lend, set] = ready(2);
    assert_eq!(answers(&[&open, &on]), ["00", "06"]);
    assert_eq!(
        answers(&[&open, &lend, &set, "12FF", &on]),
        ["00", "00", "07"]
    );
}

/// Each fade ends as its own call has it, also where one replaces another; a stop and a bank between do not matter.
#[test]
fn the_last_call_counts() {
    let (on, old) = (fade("73", FM, 0), fade("14", FM, 0));
    let (long_on, long_old) = (fade("73", FM, 300), fade("14", FM, 300));
    let sounds = |records: &[&str]| {
        samples(&[records, &["210040"]].concat())[32..]
            .iter()
            .any(|sample| *sample != 0)
    };
    assert!(sounds(&[&long_old, "210010", &on]));
    assert!(!sounds(&[&long_on, "210010", &old]));
    assert!(sounds(&[&old, "210010", &on]));
    assert!(!sounds(&[&on, "210010", "19", &old]));
    let set = ready(2)[2].clone();
    assert!(!sounds(&[&on, "210010", &set, &old]));
    // A fade of either call that is refused begins none.
    assert!(sounds(&[&long_on, &fade("14", 9, 5), "210100"]));
    assert!(!sounds(&[&long_old, &fade("73", 2, 5), "210100"]));
}

/// As long as the fade of old, and with voice 1's place in age at its end.
#[test]
fn its_frames_and_its_rank() {
    for ms in [0, 1, 5, 20, 300] {
        let left = |code| told(2, &[&fade(code, FM, ms), "79"]).pop();
        assert_eq!(left("73"), left("14"), "{ms}");
    }
    let low = play(1);
    let told = told(3, &[&low, &low, &low, &fade("73", FM, 0), "7A", "66", "7A"]);
    assert_eq!([&told[4], &told[6]], ["000201", "01FF00"]);
}

#[test]
fn bad_lines() {
    let on = fade("73", FM, 5);
    let [open, lend, set] = ready(2);
    assert_eq!(last(&[&on]), "FFFF");
    assert_eq!(last(&[OPEN, &lend, &set, &on]), "FFFF");
    assert_eq!(last(&[&open, &lend, &set, &on[..22]]), "FFFF");
    assert_eq!(last(&[&open, &lend, &set, &format!("{on}00")]), "FFFF");
}
