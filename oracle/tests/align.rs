//! The program that lays answers beside a script's records.

use std::path::PathBuf;
use std::process::Command;

/// What `align` prints for a script, answers to it, and other answers if there are any. The name is for the files.
fn align(name: &str, texts: &[&str]) -> String {
    let paths = texts.iter().enumerate().map(|(place, text)| {
        let path = PathBuf::from(env!("CARGO_TARGET_TMPDIR")).join(format!("align-{name}-{place}"));
        std::fs::write(&path, text).unwrap();
        path
    });
    let output = Command::new(env!("CARGO_BIN_EXE_align"))
        .args(paths)
        .output()
        .unwrap();
    assert!(output.status.success());
    String::from_utf8(output.stdout).unwrap()
}

fn count(name: &str, script: &[&str], answers: &[&str]) -> String {
    let text = |lines: &[&str]| {
        lines
            .iter()
            .map(|line| format!("{line}\n"))
            .collect::<String>()
    };
    align(name, &[&text(script), &text(answers)])
}

const OPEN: &str = "100200001F4003E800FF00";
const PLAY: &str = "1300010002000364000409";
/// The first field of a dump's first line is the number of voices.
const DUMP: &str = "00000000000000020000000000000000";

#[test]
fn records_are_counted() {
    let silent = [
        "12",
        "15000001B8000002",
        "16000001B8000003",
        "170000",
        "1800",
        "19",
    ];
    let script = [&[OPEN], &silent[..], &["30", PLAY, "1D"]].concat();
    assert_eq!(
        count("all", &script, &["00", DUMP, "0", "0", "06FF", "0000"]),
        "10 1 0\n"
    );
    // The last answers are missing.
    assert_eq!(count("cut", &script, &["00", DUMP, "0", "0"]), "8 0 0\n");
    let lines = [
        "4800000004FF0000000003E800010000",
        "46000002",
        "4800000004FF00000001000200010000",
        "1D",
    ];
    assert_eq!(
        count("lines", &lines, &["00", "3F", "000001", "02", "FFFF"]),
        "4 0 0\n"
    );
}

/// A buffer's frames are told by its filled length, half of it for pairs.
#[test]
fn frames_are_counted() {
    let script = [OPEN, "200003", "290005", "2B", "2C"];
    let answers = [
        "00",
        "000301F401F401F4",
        "00040000000000000000A5A5",
        "0000",
        "01F4",
    ];
    assert_eq!(count("frames", &script, &answers), "5 0 7\n");
    assert_eq!(
        count("no frames", &[OPEN, "200801"], &["00", "FFFF"]),
        "2 0 0\n"
    );
}

/// A bad line is the last one that is read, also one whose record prints nothing when it is good.
#[test]
fn a_bad_line_ends_the_run() {
    for bad in [
        "15000001B8000003",
        "16000001B8000004",
        "1",
        "120",
        "12g0",
        "1800000",
        "1900",
        "1700",
        "2b",
    ] {
        let script = [OPEN, "19", bad, "19", PLAY];
        assert_eq!(count("bad", &script, &["00", "FFFF"]), "3 0 0\n", "{bad}");
    }
    assert_eq!(
        count("bad play", &[OPEN, "13", "19"], &["00", "FFFF"]),
        "2 0 0\n"
    );
    // Before an engine is open, a refused one too.
    assert_eq!(count("unopened", &["12", "19", "19"], &["FFFF"]), "2 0 0\n");
    let refused = ["101100001F4003E800FF00", "1800", "19"];
    assert_eq!(count("refused", &refused, &["01", "FFFF"]), "2 0 0\n");
    // These answers look like one to a bad line, in a box of either document.
    for open in [OPEN, &OPEN.replacen("10", "70", 1)] {
        let like = [open, "4380", "52FFFF0000", "2B", "19"];
        assert_eq!(
            count("like", &like, &["00", "FFFF", "FFFF", "FFFF"]),
            "5 0 0\n"
        );
    }
}

/// Two silent voices have the ranks FF and FF, in a box of the present rules.
#[test]
fn ranks_that_look_like_a_bad_line() {
    let present = &OPEN.replacen("10", "70", 1);
    let refused = &OPEN.replacen("1002", "1011", 1);
    let after = |opens: &[&str], numbers: &[&str]| {
        let script = [opens, &["7A", "19", "7A"]].concat();
        count("ranks", &script, &[numbers, &["FFFF", "FFFF"]].concat())
    };
    assert_eq!(after(&[present], &["00"]), "4 0 0\n");
    assert_eq!(after(&[present, refused], &["00", "01"]), "5 0 0\n");
    assert_eq!(after(&[OPEN], &["00"]), "2 0 0\n");
    assert_eq!(after(&[present, OPEN], &["00", "00"]), "3 0 0\n");
    assert_eq!(after(&[], &[]), "1 0 0\n");
}

/// Each of the records of requests that wait prints one line, none of which looks like one to a bad line; a box that has them not answers with one.
#[test]
fn requests_that_wait() {
    let present = &OPEN.replacen("10", "70", 1);
    let leave = &format!("74FFFF00{}", &PLAY[2..]);
    let script = [leave, "76", "77", "75FFFF", "78", "19", "7A"];
    let answers = ["00", "01FFFF", "01FFFF", "00", "0AFFFF", "FFFF"];
    let after = |open, answers: &[&str]| {
        let script = [&[open], &script[..]].concat();
        count("waiting", &script, &[&["00"], answers].concat())
    };
    assert_eq!(after(present, &answers), "8 0 0\n");
    assert_eq!(after(OPEN, &["FFFF"]), "2 0 0\n");
}

#[test]
fn the_first_difference_is_shown() {
    let script = format!("{OPEN}\n19\n30\n12\n{PLAY}\n1D\n");
    let answers = format!("00\n{DUMP}\n0A\n0B\n0000\n0101\n");
    let shown = |other: &str| align("shown", &[&script, &answers, other]);
    let third = shown(&answers.replace("0B", "0C"));
    assert!(third.starts_with("record 3: 30\n"), "{third}");
    assert!(
        third.contains(&format!("port:   {DUMP} / 0A / 0C\n")),
        "{third}"
    );
    let fifth = shown(&answers.replace("0000\n0101", "05FF\n0101"));
    assert!(fifth.starts_with(&format!("record 5: {PLAY}\n")), "{fifth}");
    assert!(fifth.ends_with("oracle: 0000\nport:   05FF\n"), "{fifth}");
    let ended = shown(&answers.replace("0101\n", ""));
    assert!(ended.starts_with("record 6: 1D\n"), "{ended}");
    assert!(ended.ends_with("port:   (nothing)\n"), "{ended}");
    assert!(shown(&format!("{answers}00\n")).contains("after the last record"));
}
