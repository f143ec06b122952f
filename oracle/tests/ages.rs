//! Oldest means oldest: document 02's T-07, by record 7A and by who is taken.

mod common;

use common::*;
use std::process::Command;

/// A box of the present rules of so many voices, at 1,000 Hz: a ms is a sample.
fn open(voices: u8) -> String {
    format!("70{voices:02X}000003E803E800FF00")
}

/// Ids 1, an FM sound without end; 2, a tone of 5 ms; 3, of a kind that is not started.
fn bank() -> [String; 2] {
    let mut bytes = vec![0; 10];
    for (id, kind, ms) in [(1u16, 2, 150u16), (2, 0, 5), (3, 3, 0)] {
        bytes.extend(id.to_le_bytes());
        bytes.extend([kind, 0, 200, 0, 0xB8, 1]);
        bytes.extend(ms.to_le_bytes());
        bytes.extend([0; 6]);
    }
    [format!("12{}", hex(&bytes)), SET.to_string()]
}

const SET: &str = "11000003E80003";
const TONE: &str = "15000001B8000000";
const POLYBLEP: &str = "16000001B8000000";

/// An envelope without attack, decay and release, at level 100.
fn play(id: u16, priority: u8) -> String {
    format!("13{id:04X}0000000064{:04X}{priority:02X}", 0)
}

fn fade(id: u16, ms: u16) -> String {
    format!("14{id:04X}{ms:04X}00000000640000")
}

/// What a box of so many voices answers to the last of the records.
fn told(voices: u8, records: &[&str]) -> String {
    let [lend, set] = bank();
    last(&[&[&open(voices)[..], &lend, &set], records].concat())
}

/// The ranks after these records.
fn ranks(voices: u8, records: &[&str]) -> String {
    told(voices, &[records, &["7A"]].concat())
}

/// Document 02: in 01's request example the last 7 goes to voice 1. Document 01's box is as before.
#[test]
fn the_request_example() {
    let [lend, set] = bank();
    let plays = [3, 5, 5, 7].map(|priority| play(1, priority));
    for (code, last_voice) in [("70", "0001"), ("10", "0000")] {
        let open = open(2).replacen("70", code, 1);
        let mut script = vec![&open, &lend, &set];
        script.extend(&plays);
        let script: Vec<&str> = script.into_iter().map(String::as_str).collect();
        let lines = answers(&script);
        assert_eq!(lines[2..5], ["0000", "0001", "0000"]);
        assert_eq!(lines[5], last_voice);
    }
}

#[test]
fn ranks_of_starts() {
    let plays = [1, 1, 1].map(|priority| play(1, priority));
    let [a, b, c] = plays.each_ref().map(String::as_str);
    assert_eq!(ranks(3, &[]), "FFFFFF");
    assert_eq!(ranks(3, &[a]), "00FFFF");
    assert_eq!(ranks(3, &[a, b, c]), "000102");
    // Taken one after another, oldest first; each becomes the youngest.
    let higher = play(1, 2);
    assert_eq!(told(3, &[a, b, c, &higher]), "0000");
    assert_eq!(ranks(3, &[a, b, c, &higher]), "020001");
    assert_eq!(told(3, &[a, b, c, &higher, &higher]), "0001");
    assert_eq!(ranks(3, &[a, b, c, &higher, &higher]), "010200");
    // An older voice of a higher priority stays.
    assert_eq!(told(3, &[a, b, c, &higher, TONE, "1C03"]), "0000");
    assert_eq!(told(3, &[&higher, a, b, &higher]), "0001");
    // A refused one changes no rank.
    assert_eq!(ranks(3, &[a, b, c, b]), "000102");
    assert_eq!(ranks(3, &[a, b, c, &play(3, 9), &play(7, 9)]), "000102");
    assert_eq!(ranks(0, &[a, TONE]), "");
    assert_eq!(ranks(1, &[TONE]), "00");
    assert_eq!(ranks(16, &[a, b]), format!("0001{}", "FF".repeat(14)));
}

/// Also where voice 0 was audible before.
#[test]
fn tone_and_polyblep_are_starts() {
    let low = play(1, 1);
    for start in [TONE, POLYBLEP] {
        assert_eq!(ranks(3, &[start]), "00FFFF");
        assert_eq!(ranks(3, &[&low, &low, &low, start]), "020001");
        assert_eq!(ranks(3, &[&low, &low, &low, start, start]), "020001");
        // Their priority is 0, and so they go first.
        assert_eq!(told(3, &[&low, &low, &low, start, "1C01"]), "0000");
    }
}

#[test]
fn a_fade_s_start_and_end() {
    let (low, fade) = (play(1, 1), fade(1, 0));
    let full = [&low[..], &low, &low];
    let after = |records: &[&str]| ranks(3, &[&full, records].concat());
    // The release of no length leaves voice 0 audible by its source.
    assert_eq!(after(&[&fade]), "000201");
    // At its end voice 0 has voice 1's place.
    assert_eq!(after(&[&fade, "66"]), "01FF00");
    assert_eq!(after(&[&fade, &fade, "2B"]), "01FF00");
    assert_eq!(after(&[&fade, TONE, "66"]), "01FF00");
    // A start in voice 1 between them is the one that counts.
    let higher = play(1, 200);
    let long = self::fade(1, 9);
    let taken = [&low[..], &long, TONE, &low, &higher, &higher, &higher];
    assert_eq!(ranks(3, &taken), "000201");
    assert_eq!(ranks(3, &[&taken[..], &["21000A"]].concat()), "01FF00");
}

/// Voice 0 takes the rest of a tone, which ends; an ended tone it does not take.
#[test]
fn voices_that_end() {
    let (low, short) = (play(1, 1), play(2, 1));
    let full = [&low[..], &low, &low];
    let after = |records: &[&str]| ranks(3, &[&full, records].concat());
    let rest = [&fade(2, 3)[..], "210003"];
    assert_eq!(after(&rest), "01FF00");
    // Three of its five samples are given; the fifth request after them finds none, and the envelope is idle.
    assert_eq!(after(&[rest[0], rest[1], "210002"]), "01FF00");
    assert_eq!(after(&[rest[0], rest[1], "210003"]), "FFFF00");
    let ended = [&fade(2, 9)[..], "210009"];
    assert_eq!(after(&ended), "FFFF00");
    // A tone that has ended is audible by its envelope, until a release of no length; the refused fade is one.
    let first = [&short[..], &low, &low, "210009"];
    assert_eq!(ranks(3, &first), "000102");
    let not_started = fade(3, 0);
    let refused = [&first[..], &[&not_started]].concat();
    assert_eq!(told(3, &refused), "0A");
    assert_eq!(ranks(3, &refused), "FF0001");
    // With a release of 2 ms it is gone in the second frame.
    let slow = format!("13{:04X}0000000064{:04X}01", 2, 2);
    let first = [&slow[..], &low, &low, "210009", &not_started];
    assert_eq!(ranks(3, &first), "000102");
    assert_eq!(ranks(3, &[&first[..], &["66"]].concat()), "000102");
    assert_eq!(ranks(3, &[&first[..], &["66", "66"]].concat()), "FF0001");
    // The voice that is free then is started anew, as the youngest.
    assert_eq!(ranks(3, &[&refused[..], &[&low]].concat()), "020001");
}

#[test]
fn stops_and_banks() {
    let low = play(1, 1);
    for end in ["19", SET] {
        let full = [&low[..], TONE, &low, &low, &low, end];
        assert_eq!(ranks(3, &full), "FFFFFF");
        assert_eq!(ranks(3, &[&full[..], &[&low, &low]].concat()), "0001FF");
    }
    // A fade that outlives a new bank ends without a sound.
    let ended = [&low[..], &low, &fade(1, 3), SET, "210003"];
    assert_eq!(ranks(3, &ended), "FFFFFF");
    assert_eq!(ranks(3, &[&ended[..], &[&low]].concat()), "00FFFF");
}

/// FreeChannelOnly takes none, and its voices have ranks too.
#[test]
fn free_channels() {
    let [lend, set] = bank();
    let open = open(2).replacen("FF00", "FF01", 1);
    let (low, high) = (play(1, 1), play(1, 9));
    let lines = answers(&[&open, &lend, &set, &low, TONE, &low, &high, "7A"]);
    assert_eq!(lines[2..], ["0000", "0001", "05FF", "0001"]);
}

#[test]
fn bad_lines() {
    let old = open(2).replacen("70", "10", 1);
    for script in [
        &["7A"][..],
        &[&old, "7A"],
        &[&open(2), &old, "7A"],
        &[&open(2), "7A00"],
        &[&open(2), "7"],
        &[&open(17), "7A"],
    ] {
        let lines = answers(&[script, &["4500"]].concat());
        assert_eq!(lines.last().unwrap(), "FFFF", "{script:?}");
        assert_eq!(lines.len(), script.len());
    }
    // A refused one of document 01 leaves the box of the present rules.
    let refused = old.replacen("1002", "1011", 1);
    assert_eq!(answers(&[&open(1), &refused, "7A"]), ["00", "01", "FF"]);
}

/// A voice of a dump.
struct Voice {
    audible: bool,
    priority: i64,
}

impl Voice {
    /// Behind the source, whose last field says whether it is active, come nine fields of the envelope and four more.
    fn read(line: &str) -> Self {
        let fields = fields(line);
        let (source, rest) = fields.split_at(fields.len() - 13);
        let sounds = source.len() > 1 && source[source.len() - 1] == 1;
        Self {
            audible: sounds || rest[4] != 4,
            priority: rest[10],
        }
    }
}

/// A box's ages kept in another way than the oracle's: the audible voices in a list, the oldest first.
#[derive(Default)]
struct Ages {
    list: Vec<usize>,
    voices: Vec<Voice>,
    fade: bool,
}

impl Ages {
    fn start(&mut self, voice: usize) {
        self.list.retain(|other| *other != voice);
        self.list.push(voice);
    }

    /// Who is to be taken when no voice is free.
    fn oldest_of_lowest(&self) -> usize {
        let lowest = self.voices.iter().map(|voice| voice.priority).min();
        let mut by_age = self.list.iter();
        let found = by_age.find(|voice| Some(self.voices[**voice].priority) == lowest);
        *found.unwrap()
    }

    /// What a record with this answer did; the dump after it is not yet read.
    fn after(&mut self, record: &str, answer: &str) {
        let started = answer.starts_with("00");
        match &record[..2] {
            "10" | "70" if started => *self = Self::default(),
            "13" | "62" if started => {
                let voice = usize::from_str_radix(&answer[2..], 16).unwrap();
                match self.voices.iter().position(|voice| !voice.audible) {
                    Some(free) => assert_eq!(voice, free),
                    None => assert_eq!(voice, self.oldest_of_lowest()),
                }
                self.start(voice);
            }
            "14" | "73" if started => self.start(1),
            "15" | "16" if !self.voices.is_empty() => self.start(0),
            _ => (),
        }
    }

    /// What the dump shows: a fade that has ended, and voices that have.
    fn see(&mut self, dump: &[String], stopped: bool) {
        let fade = fields(&dump[0])[15] == 1;
        if self.fade && !fade && !stopped {
            self.list.retain(|voice| *voice != 0);
            for voice in self.list.iter_mut().filter(|voice| **voice == 1) {
                *voice = 0;
            }
        }
        self.fade = fade;
        self.voices = dump[1..].iter().map(|line| Voice::read(line)).collect();
        let voices = &self.voices;
        self.list.retain(|voice| voices[*voice].audible);
        let audible = voices.iter().filter(|voice| voice.audible);
        assert_eq!(audible.count(), self.list.len());
    }

    fn ranks(&self) -> String {
        let rank = |voice| self.list.iter().position(|other| *other == voice);
        let ranks = (0..self.voices.len()).map(|voice| rank(voice).unwrap_or(0xFF));
        ranks.map(|rank| format!("{rank:02X}")).collect()
    }
}

/// The generator's own runs, against that list: after every record there is a dump, and in a box of the present rules its ranks.
#[test]
fn generated_runs_by_a_list() {
    let mut ranked = 0;
    for (name, seed) in [
        ("ages", 1),
        ("ages", 2),
        ("ages", 3),
        ("frames", 4),
        ("fades", 5),
    ] {
        let output = Command::new(env!("CARGO_BIN_EXE_generate"))
            .args(["present", "engine", name, &seed.to_string(), "6000"])
            .output()
            .unwrap();
        let script = String::from_utf8(output.stdout).unwrap();
        let script: Vec<&str> = script.lines().collect();
        ranked += replayed_by_a_list(&script);
    }
    assert!(ranked > 5_000, "{ranked}");
}

/// How many ranks were compared.
fn replayed_by_a_list(script: &[&str]) -> usize {
    let mut answers = answers(script).into_iter();
    let (mut ages, mut present, mut stopped, mut ranked) = (Ages::default(), false, false, 0);
    for record in script {
        match &record[..2] {
            "12" | "17" | "18" => (),
            "15" | "16" if !present => (),
            "15" | "16" => ages.after(record, ""),
            "19" => stopped = true,
            "30" => {
                let first = answers.next().unwrap();
                let voices = fields(&first)[0] as usize;
                let dump: Vec<String> = [first]
                    .into_iter()
                    .chain(answers.by_ref().take(voices))
                    .collect();
                if present {
                    ages.see(&dump, stopped);
                }
                stopped = false;
            }
            "7A" => {
                assert_eq!(answers.next().unwrap(), ages.ranks());
                ranked += 1;
            }
            code => {
                let answer = answers.next().unwrap();
                if answer == "00" && (code == "10" || code == "70") {
                    present = code == "70";
                }
                if present {
                    ages.after(record, &answer);
                }
            }
        }
    }
    assert_eq!(answers.next(), None);
    ranked
}
