//! Requests that wait: document 02's T-08, by the records 74 to 78.

mod common;

use common::*;
use std::collections::BTreeSet;
use std::process::Command;

/// A box of the present rules of so many voices, as `OPEN` but for that.
fn open(voices: u8) -> String {
    format!("70{voices:02X}{}", &OPEN[4..])
}

fn leave(label: u16, id: u16, priority: u8) -> String {
    format!("74{label:04X}00{}", &play(id, priority)[2..])
}

fn withdraw(label: u16) -> String {
    format!("75{label:04X}")
}

/// What a box with a bank answers to the records.
fn told(voices: u8, records: &[&str]) -> Vec<String> {
    let before = [&open(voices)[..], &lend(), &set()];
    answers(&[&before, records].concat()).split_off(2)
}

fn last_told(voices: u8, records: &[&str]) -> String {
    told(voices, records).pop().unwrap()
}

/// An FM sound, which does not end; of a kind that is not started; with a payload that runs over; of no entry, where the search meets kind 6.
const SOUND: u16 = 3;
const NOT_CARRIED: u16 = 4;
const RUNS_OVER: u16 = 7;
const STRANGE: u16 = 100;

const NO_LABEL: &str = "00";

#[test]
fn leaving_does_not_try() {
    let leave = leave(0xABCD, SOUND, 5);
    let lines = told(2, &[&leave, "1D", "7A", "76", "77", "78"]);
    assert_eq!(lines, ["00", "0000", "FFFF", "01ABCD", "01ABCD", NO_LABEL]);
    assert_eq!(told(2, &["76", "77", "78"]), [NO_LABEL; 3]);
    // Nor does it look at the request.
    let unsound = self::leave(1, STRANGE, 5);
    assert_eq!(told(2, &["12", &unsound, "78"]), ["00", NO_LABEL]);
}

#[test]
fn numbers() {
    let many: Vec<String> = (1..=33).map(|label| leave(label, SOUND, 5)).collect();
    let many: Vec<&str> = many.iter().map(String::as_str).collect();
    let lines = told(2, &many);
    assert!(lines[..32].iter().all(|line| line == "00"));
    assert_eq!(lines[32], "11");
    // A label that waits is found before that 32 do.
    assert_eq!(last_told(2, &[&many[..], &[many[31]]].concat()), "12");
    assert_eq!(last_told(2, &[many[0], many[0]]), "12");
    assert_eq!(last_told(2, &[&withdraw(1)]), "13");
    assert_eq!(last_told(2, &[many[0], &withdraw(2)]), "13");
    let twice = [many[0], &withdraw(1), "76", &withdraw(1), many[0]];
    assert_eq!(told(2, &twice), ["00", "00", "00", "13", "00"]);
    // Where one is withdrawn there is room for another.
    let one_less = withdraw(9);
    let lines = told(2, &[&many[..], &[&one_less, many[32], "76"]].concat());
    assert_eq!(lines[33..35], ["00", "00"]);
    assert_eq!(lines[35][..2], *"20");
    assert!(lines[35].ends_with("0021") && !lines[35].contains("0009"));
}

/// Five requests: the highest priority first, the earliest among equals.
#[test]
fn the_order() {
    let left = [(1, 5), (2, 9), (3, 5), (4, 9), (5, 0)];
    let left = left.map(|(label, priority)| leave(label, SOUND, priority));
    let left = left.each_ref().map(String::as_str);
    let after = |voices, records: &[&str]| last_told(voices, &[&left, records].concat());
    assert_eq!(after(2, &["76"]), "0500020004000100030005");
    assert_eq!(after(2, &["77"]), "010002");
    // As many as there are voices go in, one after the other, each on the first voice that is free.
    assert_eq!(after(1, &["66", "76"]), "040004000100030005");
    assert_eq!(after(3, &["66", "76"]), "0200030005");
    assert_eq!(after(3, &["66", "7A"]), "000102");
    assert_eq!(after(6, &["66", "76"]), NO_LABEL);
    assert_eq!(after(6, &["66", "7A"]), "0001020304FF");
    let priority = |voice: u8| {
        let voice = fields(&after(3, &["66", &format!("69{voice:02X}")]));
        voice[voice.len() - 3]
    };
    assert_eq!([0, 1, 2].map(priority), [9, 9, 5]);
    // One that is left anew is the latest.
    let anew = [&withdraw(2), left[1], "76"];
    assert_eq!(after(2, &anew), "0500040002000100030005");
}

/// What goes in is what a play request would be.
#[test]
fn as_a_play_request() {
    let state = ["66", "30", "7A", "220009", "30"];
    let (leave, play) = (leave(1, SOUND, 9), play(SOUND, 9));
    let entered = told(2, &[&[&leave[..]], &state[..]].concat());
    let played = told(2, &[&[&play[..]], &state[..]].concat());
    assert_eq!(entered[1..], played[1..]);
}

/// However high its priority, under either policy.
#[test]
fn no_voice_is_taken() {
    let (low, high) = (play(SOUND, 0), leave(1, SOUND, 255));
    for policy in ["00", "01"] {
        let open = format!("{}{policy}", &open(1)[..20]);
        let records = [&open, &lend(), &set(), &low, &high, "210010", "76", "7A"];
        let lines = answers(&records);
        assert_eq!(lines[lines.len() - 2..], ["010001", "00"]);
    }
}

#[test]
fn dropped_ones() {
    let left = [
        leave(1, NOT_CARRIED, 9),
        leave(2, SOUND, 7),
        leave(3, RUNS_OVER, 8),
        leave(4, STRANGE, 1),
    ];
    let left = left.each_ref().map(String::as_str);
    // 10, then 16, then the sound one, which fills the box of one voice; in that of two 9 comes after it.
    let seen = ["66", "76", "78", "7A"];
    let after = |voices| told(voices, &[&left, &seen[..]].concat()).split_off(5);
    assert_eq!(after(1), ["010004", "100003", "00"]);
    assert_eq!(after(2), [NO_LABEL, "090004", "00FF"]);
    // No bank; bytes of another length; no such entry.
    let one = leave(0xFFFF, STRANGE, 0);
    assert_eq!(last(&[&open(1), &one, "66", "78"]), "06FFFF");
    assert_eq!(last_told(1, &[&one, "12", "66", "78"]), "07FFFF");
    assert_eq!(
        last_told(1, &["1100001F400008", &one, "66", "78"]),
        "08FFFF"
    );
    // The bytes that count are those of the frame.
    assert_eq!(last_told(1, &["12", &one, &lend(), "66", "78"]), "09FFFF");
}

#[test]
fn what_leaves_the_kept_refusal() {
    let dropped = [&leave(7, NOT_CARRIED, 9)[..], "66"];
    let after = |records: &[&str]| last_told(2, &[&dropped, records, &["78"]].concat());
    let (sound, refused) = (leave(1, SOUND, 1), open(17));
    let document_01 = refused.replacen("70", "10", 1);
    for records in [
        &["78", "77", "76"][..],
        &["19"],
        &[&set()],
        &[&sound, &withdraw(1), &withdraw(1)],
        &[&sound, "66", "66"],
        &[&play(NOT_CARRIED, 1), &fade(STRANGE)],
        &[&refused, &document_01],
    ] {
        assert_eq!(after(records), "0A0007", "{records:?}");
    }
    assert_eq!(after(&[&leave(7, STRANGE, 9), "66"]), "090007");
    assert_eq!(after(&[&open(2)]), NO_LABEL);
    assert_eq!(after(&[OPEN, &open(2)]), NO_LABEL);
}

#[test]
fn what_leaves_the_line() {
    let left = [&leave(1, SOUND, 1)[..], &leave(2, SOUND, 2)];
    let after = |records: &[&str]| last_told(1, &[&left, records, &["76"]].concat());
    let refused = open(17);
    for records in [
        &["19"][..],
        &[&set()],
        &[&set()[..], "12", "19"],
        &[&refused],
        &[&play(SOUND, 1), "66", "19"],
    ] {
        assert_eq!(after(records), "0200020001", "{records:?}");
    }
    assert_eq!(after(&["66", "19", "66"]), NO_LABEL);
    assert_eq!(after(&["66", &set(), "66"]), NO_LABEL);
    assert_eq!(after(&[&open(1)]), NO_LABEL);
    assert_eq!(after(&[OPEN, &open(1)]), NO_LABEL);
}

#[test]
fn without_voices_all_wait() {
    let left = [&leave(1, SOUND, 1)[..], &leave(2, STRANGE, 2)];
    let after = told(
        0,
        &[&left, &["210800", "66", "2B", "76", "78"][..]].concat(),
    );
    assert_eq!(after[after.len() - 2..], ["0200020001", NO_LABEL]);
}

/// Every record of frames, where it makes one; a buffer that has none tries nothing.
#[test]
fn every_kind_of_frame() {
    let one = leave(1, SOUND, 1);
    let after = |record: &str| last_told(2, &[&one, record, "76"]);
    for mono in 0x20..=0x26 {
        assert_eq!(after(&format!("{mono:02X}0001")), NO_LABEL);
        assert_eq!(after(&format!("{mono:02X}0000")), "010001");
    }
    for stereo in 0x27..=0x2A {
        assert_eq!(after(&format!("{stereo:02X}0002")), NO_LABEL);
        assert_eq!(after(&format!("{stereo:02X}0003")), NO_LABEL);
        assert_eq!(after(&format!("{stereo:02X}0000")), "010001");
        assert_eq!(after(&format!("{stereo:02X}0001")), "010001");
    }
    for single in ["2B", "2C", "66", "67", "68"] {
        assert_eq!(after(single), NO_LABEL);
    }
    for other in ["1D", "1C09", "1A0003", "6300", "64", "65", "6900", "79"] {
        assert_eq!(after(other), "010001");
    }
}

/// 20 ms at 8,000 Hz are 128 frames, of which the last frees voice 1: there is room for a request from the next one on, by either call.
#[test]
fn before_the_fade_advances() {
    let (first, left) = (play(SOUND, 1), leave(1, SOUND, 200));
    for fade in [fade(SOUND), fade(SOUND).replacen("14", "73", 1)] {
        let fading = [&first[..], &fade, &left];
        let after = |records: &[&str]| told(2, &[&fading[..], records].concat()).split_off(4);
        let ends = ["21007F", "76", "66", "76", "66", "76", "7A"];
        let lines = after(&ends);
        assert_eq!(
            [&lines[0], &lines[2], &lines[4]],
            ["010001", "010001", "00"]
        );
        assert_eq!(lines[5], "0001");
        assert_eq!(after(&["210080", "76"])[0], "010001");
        assert_eq!(after(&["210081", "76"])[0], "00");
        // In the fade's last frame, after a new bank, two go in first; then voice 0 takes what went in on voice 1.
        let both = ["21007F", &set(), &leave(2, SOUND, 9), "66", "7A", "6900"];
        let lines = after(&both);
        assert_eq!(lines[3], "00FF");
        let voice = fields(&lines[4]);
        assert_eq!(voice[voice.len() - 3], 9);
    }
}

#[test]
fn bad_lines() {
    let (leave, withdraw) = (leave(1, SOUND, 9), withdraw(1));
    for record in [&leave[..], &withdraw, "76", "77", "78"] {
        let bad = |before: &[&str], record: &str| {
            let lines = answers(&[before, &[record, "4500"]].concat());
            lines.last().unwrap() == "FFFF"
        };
        let present = open(2);
        assert!(!bad(&[&present], record), "{record}");
        assert!(bad(&[], record) && bad(&[OPEN], record), "{record}");
        assert!(bad(&[&open(17)], record), "{record}");
        assert!(bad(&[&present, OPEN], record), "{record}");
        for length in 1..record.len() {
            assert!(bad(&[&present], &record[..length]), "{record} {length}");
        }
        assert!(bad(&[&present], &format!("{record}00")), "{record}");
    }
    for building in [1, 4, 255] {
        let other = format!("740001{building:02X}{}", &leave[8..]);
        assert_eq!(last_told(2, &[&other]), "FFFF");
    }
}

/// A record and its answer's lines.
type Laid = (String, Vec<String>);

fn laid(script: &[String]) -> Vec<Laid> {
    let script: Vec<&str> = script.iter().map(String::as_str).collect();
    let mut answers = answers(&script).into_iter();
    let beside = |record: &&str| {
        let lines = match &record[..2] {
            "12" | "15" | "16" | "17" | "18" | "19" => vec![],
            "30" => {
                let first = answers.next().unwrap();
                let voices = fields(&first)[0] as usize;
                [first]
                    .into_iter()
                    .chain(answers.by_ref().take(voices))
                    .collect()
            }
            _ => vec![answers.next().unwrap()],
        };
        (record.to_string(), lines)
    };
    let laid = script.iter().map(beside).collect();
    assert_eq!(answers.next(), None);
    laid
}

/// The frames of a record, and the record of one of them; none where it makes no frames.
fn frames(record: &str) -> Option<(usize, String)> {
    let (code, rest) = record.split_at(2);
    let cells = match code {
        "20" | "21" | "22" | "23" | "24" | "25" | "26" => 1,
        "27" | "28" | "29" | "2A" => 2,
        "2B" | "2C" | "66" | "67" | "68" => return Some((1, code.to_string())),
        _ => return None,
    };
    let all = usize::from_str_radix(rest, 16).unwrap();
    Some((all / cells, format!("{code}{cells:04X}")))
}

/// Which box a record opens, if it was accepted: its voices, and whether it is one of the present rules.
fn opened((record, lines): &Laid) -> Option<(usize, bool)> {
    let opens = ["10", "70"].contains(&&record[..2]) && lines[0] == "00";
    let voices = || usize::from_str_radix(&record[2..4], 16).unwrap();
    opens.then(|| (voices(), record.starts_with("70")))
}

/// A script whose buffers are made frame by frame, with the line after each; the answers must be the same.
fn frame_by_frame(whole: &[Laid]) -> Vec<Laid> {
    let (mut script, mut present) = (vec![], false);
    for one in whole {
        present = opened(one).map_or(present, |(_, rules)| rules);
        let Some((count, single)) = frames(&one.0) else {
            script.push(one.0.clone());
            continue;
        };
        for _ in 0..count {
            script.push(single.clone());
            script.extend(present.then(|| "76".to_string()));
        }
    }
    let split = laid(&script);
    let (mut rest, mut present) = (split.iter(), false);
    for one in whole {
        present = opened(one).map_or(present, |(_, rules)| rules);
        let Some((count, single)) = frames(&one.0) else {
            assert_eq!(rest.next(), Some(one));
            continue;
        };
        let lines = rest.by_ref().take(count * (1 + present as usize));
        let cells = lines.filter(|one| one.0 == single).map(|one| &one.1[0]);
        if one.0.len() == 2 {
            assert!(cells.eq([&one.1[0]]));
            continue;
        }
        let cells: String = cells.map(|line| &line[4..]).collect();
        let (length, filled) = one.1[0].split_at(4);
        let width = usize::from_str_radix(&single[2..], 16).unwrap();
        assert_eq!(length, format!("{:04X}", count * width));
        let unwritten = filled.strip_prefix(&cells[..]).unwrap();
        assert!(unwritten.is_empty() || unwritten.chars().all(|digit| "A5".contains(digit)));
    }
    assert!(rest.next().is_none());
    split
}

/// A line kept in another way than the oracle's: in order, each request put in its place. Label, priority, and the play request that it stands for.
#[derive(Default)]
struct Line(Vec<(String, u8, String)>);

impl Line {
    fn leave(&mut self, record: &str) -> &str {
        let (label, request) = (record[2..6].to_string(), &record[8..]);
        let priority = u8::from_str_radix(&request[18..], 16).unwrap();
        if self.0.iter().any(|other| other.0 == label) {
            return "12";
        }
        if self.0.len() == 32 {
            return "11";
        }
        let behind = self.0.iter().position(|other| other.1 < priority);
        let place = behind.unwrap_or(self.0.len());
        self.0
            .insert(place, (label, priority, format!("13{request}")));
        "00"
    }

    fn withdraw(&mut self, label: &str) -> &str {
        let before = self.0.len();
        self.0.retain(|other| other.0 != label);
        if self.0.len() < before { "00" } else { "13" }
    }

    fn labels(&self) -> String {
        let labels: String = self.0.iter().map(|one| &one.0[..]).collect();
        format!("{:02X}{labels}", self.0.len())
    }

    fn next(&self) -> String {
        let label = self.0.first().map(|next| format!("01{}", next.0));
        label.unwrap_or("00".to_string())
    }
}

/// What is to be seen where a script has play requests in place of those that wait.
enum Seen {
    Same(Vec<String>),
    /// Before a request goes in a voice is free; after the last of a frame none is, where still one waits.
    Free,
    Full,
    /// The answer to a request with this label; `first` in its frame or not.
    Tried {
        label: String,
        first: bool,
    },
    Kept(String),
    Opened,
}

/// What has happened in runs, so that they are known to have it.
#[derive(Default)]
struct Counts {
    refused: BTreeSet<String>,
    kept: BTreeSet<String>,
    entered: usize,
    /// Not the first of its frame.
    entered_together: usize,
    dropped_together: usize,
}

/// The script without a line: before each frame as many play requests as the line became shorter by in it.
fn by_plays(split: &[Laid], counts: &mut Counts) -> Vec<(String, Seen)> {
    let (mut line, mut played) = (Line::default(), vec![]);
    for (place, (record, lines)) in split.iter().enumerate() {
        let mut then = |record: &str, seen| played.push((record.to_string(), seen));
        let opened = opened(&split[place]).is_some();
        let waiting = split.get(place + 1).filter(|next| next.0 == "76");
        match &record[..2] {
            "74" => assert_eq!(line.leave(record), lines[0]),
            "75" => assert_eq!(line.withdraw(&record[2..]), lines[0]),
            "76" => assert_eq!(line.labels(), lines[0]),
            "77" => assert_eq!(line.next(), lines[0]),
            "78" => then("1D", Seen::Kept(lines[0].clone())),
            _ => {
                if let Some((_, after)) = waiting.filter(|_| frames(record).is_some()) {
                    let still = usize::from_str_radix(&after[0][..2], 16).unwrap();
                    let in_it = line.0.len() - still;
                    for (place, (label, _, play)) in line.0.drain(..in_it).enumerate() {
                        let first = place == 0;
                        then("1D", Seen::Free);
                        then(&play, Seen::Tried { label, first });
                    }
                    if still > 0 {
                        then("1D", Seen::Full);
                    }
                }
                then(record, Seen::Same(lines.clone()));
            }
        }
        if opened {
            line = Line::default();
            then("1D", Seen::Opened);
        }
        if ["74", "75"].contains(&&record[..2]) {
            counts.refused.insert(lines[0].clone());
        }
    }
    played
}

fn replayed_by_plays(split: &[Laid], counts: &mut Counts) {
    let played = by_plays(split, counts);
    let script: Vec<String> = played.iter().map(|one| one.0.clone()).collect();
    let (mut voices, mut kept) = (0, "00".to_string());
    let mut dropped = false;
    for (one, (_, seen)) in laid(&script).iter().zip(&played) {
        let (record, lines) = one;
        voices = opened(one).map_or(voices, |(voices, _)| voices);
        let audible = || usize::from_str_radix(&lines[0][2..], 16).unwrap();
        match seen {
            Seen::Same(before) => assert_eq!(lines, before, "{record}"),
            Seen::Free => assert!(audible() < voices),
            Seen::Full => assert_eq!(audible(), voices),
            Seen::Kept(before) => assert_eq!(kept, *before),
            Seen::Opened => kept = "00".to_string(),
            Seen::Tried { label, first } => {
                let number = &lines[0][..2];
                dropped &= !first;
                if number == "00" {
                    counts.entered += 1;
                    counts.entered_together += !first as usize;
                } else {
                    counts.dropped_together += dropped as usize;
                    dropped = true;
                    counts.kept.insert(number.to_string());
                    kept = format!("{number}{label}");
                }
            }
        }
    }
}

/// The generator's own runs: a buffer is its frames one after the other, and a frame is the play requests of those next in line, then the frame.
#[test]
fn generated_runs_by_plays() {
    let mut counts = Counts::default();
    let waits = (1..=8).map(|seed| ("waits", seed, 4_000));
    let orders = (2..=7).map(|seed| ("waitorders", seed, 3));
    for (name, seed, count) in waits.chain(orders) {
        let output = Command::new(env!("CARGO_BIN_EXE_generate"))
            .args(["present", "engine", name])
            .args([seed.to_string(), count.to_string()])
            .output()
            .unwrap();
        let script = String::from_utf8(output.stdout).unwrap();
        let script: Vec<String> = script.lines().map(String::from).collect();
        replayed_by_plays(&frame_by_frame(&laid(&script)), &mut counts);
    }
    let all = |numbers: &[&str]| numbers.iter().map(|number| number.to_string()).collect();
    assert_eq!(counts.refused, all(&["00", "11", "12", "13"]));
    let kept: BTreeSet<String> = all(&["06", "07", "08", "09", "0A", "0F", "10"]);
    assert_eq!(counts.kept, kept);
    let happened = [
        counts.entered,
        counts.entered_together,
        counts.dropped_together,
    ];
    assert!(happened.iter().all(|times| *times > 100), "{happened:?}");
}
