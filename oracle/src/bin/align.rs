//! Puts a script's records beside their answers. `align SCRIPT ANSWERS` prints how many records were read, how many of
//! them were play requests, and how many frames they gave; `align SCRIPT ANSWERS OTHER` prints the first record whose answers differ, and both of them.

use std::{env, fs, process};

/// Of a long line this many characters are shown.
const SHOWN: usize = 200;

/// What a bad line prints.
const BAD: &[u8] = b"FFFF";

fn main() {
    let paths: Vec<String> = env::args().skip(1).collect();
    let files: Vec<Vec<u8>> = paths.iter().map(|path| read(path)).collect();
    match &files[..] {
        [script, answers] => count(script, answers),
        [script, answers, other] => show_difference(script, answers, other),
        _ => fail("usage: align SCRIPT ANSWERS [OTHER]"),
    }
}

fn read(path: &str) -> Vec<u8> {
    fs::read(path).unwrap_or_else(|error| fail(&format!("align: {path}: {error}")))
}

fn fail(text: &str) -> ! {
    eprintln!("{text}");
    process::exit(2)
}

/// The lines, where what stands after the last newline is one only if it is not empty.
fn lines(text: &[u8]) -> impl Iterator<Item = &[u8]> {
    text.split_inclusive(|byte| *byte == b'\n')
        .map(|line| line.strip_suffix(b"\n").unwrap_or(line))
}

/// A record and its answer's lines: none where it prints nothing.
type Aligned<'a> = (&'a [u8], Vec<&'a [u8]>);

/// The records that were read, each with its answer's lines. A bad line is the last of them.
fn align<'a>(script: &'a [u8], answers: &'a [u8]) -> impl Iterator<Item = Aligned<'a>> {
    let mut answers = lines(answers);
    let (mut open, mut ended) = (Open::Nothing, false);
    lines(script).map_while(move |record| {
        if ended {
            return None;
        }
        if SILENT.iter().any(|form| form.fits(record, open)) {
            return Some((record, vec![]));
        }
        let first = answers.next()?;
        let mut answer = vec![first];
        answer.extend(answers.by_ref().take(more_lines(record, first)));
        match record.get(..2) {
            Some(b"10") if first == b"00" => open = Open::Engine,
            Some(b"70") if first == b"00" => open = Open::Present,
            _ => (),
        }
        ended = first == BAD && !LIKE_BAD.iter().any(|form| form.fits(record, open));
        Some((record, answer))
    })
}

/// What is open, and what a record needs open: nothing, a box of either document, one of the present rules.
#[derive(Clone, Copy, PartialEq, PartialOrd)]
enum Open {
    Nothing,
    Engine,
    Present,
}

/// What the good lines of a record look like.
struct Form {
    code: &'static [u8],
    least_digits: usize,
    most_digits: usize,
    greatest_last_byte: u8,
    needs: Open,
}

impl Form {
    const fn of(code: &'static [u8], digits: usize, needs: Open) -> Self {
        Self {
            code,
            least_digits: digits,
            most_digits: digits,
            greatest_last_byte: 0xFF,
            needs,
        }
    }

    const fn with_last_up_to(self, greatest_last_byte: u8) -> Self {
        Self {
            greatest_last_byte,
            ..self
        }
    }

    fn fits(&self, record: &[u8], open: Open) -> bool {
        let digits = record.len();
        record.starts_with(self.code)
            && (self.least_digits..=self.most_digits).contains(&digits)
            && digits.is_multiple_of(2)
            && record
                .iter()
                .all(|byte| matches!(byte, b'0'..=b'9' | b'A'..=b'F'))
            && hex(&record[digits - 2..]) <= self.greatest_last_byte as u64
            && open >= self.needs
    }
}

/// The records that print nothing.
const SILENT: [Form; 6] = [
    Form {
        most_digits: 8_194,
        ..Form::of(b"12", 2, Open::Nothing)
    },
    Form::of(b"15", 16, Open::Engine).with_last_up_to(2),
    Form::of(b"16", 16, Open::Engine).with_last_up_to(3),
    Form::of(b"17", 6, Open::Engine),
    Form::of(b"18", 4, Open::Engine),
    Form::of(b"19", 2, Open::Engine),
];

/// The records whose answer may look like that to a bad line.
const LIKE_BAD: [Form; 4] = [
    Form::of(b"2B", 2, Open::Engine),
    Form::of(b"43", 4, Open::Nothing),
    Form::of(b"52", 10, Open::Nothing),
    Form::of(b"7A", 2, Open::Present),
];

/// The lines after the first: each voice of a dump; and one for the envelope records, the duty mapper, a source or a voice
/// alone and the evacuation pattern, where they are not refused.
fn more_lines(record: &[u8], first: &[u8]) -> usize {
    let codes: [&[u8]; 7] = [b"48", b"57", b"58", b"60", b"61", b"6A", b"80"];
    if record.starts_with(b"30") && first.len() > 16 {
        hex(&first[..16]) as usize
    } else if first == b"00" && codes.iter().any(|code| record.starts_with(code)) {
        1
    } else {
        0
    }
}

/// The value of digits, 0 where they are none.
fn hex(digits: &[u8]) -> u64 {
    let digits = str::from_utf8(digits).unwrap_or_default();
    u64::from_str_radix(digits, 16).unwrap_or_default()
}

fn count(script: &[u8], answers: &[u8]) {
    let (mut records, mut plays, mut frames) = (0, 0, 0);
    for (record, answer) in align(script, answers) {
        records += 1;
        plays +=
            ((record.starts_with(b"13") || record.starts_with(b"62")) && answer[0] != BAD) as u32;
        frames += frames_of(record, &answer);
    }
    println!("{records} {plays} {frames}");
}

/// The frames that a record was answered with: a buffer's are told by its filled length.
fn frames_of(record: &[u8], answer: &[&[u8]]) -> u64 {
    let Some(line) = answer.first().filter(|line| **line != BAD) else {
        return 0;
    };
    let filled = || {
        let digits = line
            .get(..4)
            .and_then(|digits| std::str::from_utf8(digits).ok());
        digits
            .and_then(|digits| u64::from_str_radix(digits, 16).ok())
            .unwrap_or(0)
    };
    match record.get(..2) {
        Some(b"20" | b"21" | b"22" | b"23" | b"24" | b"25" | b"26") => filled(),
        Some(b"27" | b"28" | b"29" | b"2A") => filled() / 2,
        Some(b"2B" | b"2C" | b"66" | b"67" | b"68") => 1,
        _ => 0,
    }
}

/// The other answers are cut as the first ones are, so that they are laid beside the same records also where they are wrong.
fn show_difference(script: &[u8], answers: &[u8], other: &[u8]) {
    let mut other = lines(other);
    for (place, (record, expected)) in align(script, answers).enumerate() {
        let given: Vec<&[u8]> = other.by_ref().take(expected.len()).collect();
        if expected != given {
            let (expected, given) = (text(&expected), text(&given));
            let same = expected.iter().zip(&given).take_while(|(a, b)| a == b);
            let at = same.count();
            println!("record {}: {}", place + 1, shown(record, 0));
            println!("they differ from character {at} on");
            println!("oracle: {}", shown(&expected, at));
            println!("port:   {}", shown(&given, at));
            return;
        }
    }
    println!("the answers differ after the last record, or in the last newline");
}

fn text(answer: &[&[u8]]) -> Vec<u8> {
    match answer {
        [] => b"(nothing)".to_vec(),
        lines => lines.join(&b" / "[..]),
    }
}

/// The line, or a part of it around a place where it is long.
fn shown(line: &[u8], at: usize) -> String {
    let start = if line.len() <= SHOWN {
        0
    } else {
        at.saturating_sub(SHOWN / 2)
    };
    let end = line.len().min(start + SHOWN);
    let before = if start > 0 { "..." } else { "" };
    let after = if end < line.len() { "..." } else { "" };
    format!("{before}{}{after}", line[start..end].escape_ascii())
}
