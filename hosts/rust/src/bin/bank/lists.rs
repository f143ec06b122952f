//! A readable list of entries, one line each.

use birchjack::NewEntry;
use std::collections::HashMap;
use std::fs;
use std::path::Path;

/// Document 01's kinds, by their bytes.
pub const KINDS: [&str; 6] = ["tone", "wavetable", "fm", "pcm8", "adpcm", "sigmadelta"];

pub const HEADER: usize = 10;
const MOST_ENTRIES: usize = 64;
const LONGEST_PAYLOAD: usize = 65_535;

/// A line's fields; its payload is read already.
pub struct Line {
    pub number: usize,
    id: u16,
    kind: u8,
    flags: u8,
    gain: u8,
    params: [u16; 2],
    payload: Vec<u8>,
}

/// What is wrong, with the number of its line.
pub type Wrong = (usize, String);

pub fn number<T: std::str::FromStr>(name: &str, word: &str, most: u32) -> Result<T, String> {
    word.parse()
        .map_err(|_| format!("{name} `{word}` is no number from 0 to {most}"))
}

fn hexadecimal(digits: &str) -> Result<Vec<u8>, String> {
    if !digits.len().is_multiple_of(2) {
        return Err(format!("`{digits}` has an odd number of digits"));
    }
    let pairs = digits.as_bytes().chunks(2);
    pairs
        .map(|pair| {
            let digit = |byte: u8| (byte as char).to_digit(16);
            let both = digit(pair[0]).zip(digit(pair[1]));
            both.map(|(high, low)| (16 * high + low) as u8)
        })
        .collect::<Option<_>>()
        .ok_or(format!("`{digits}` is not hexadecimal"))
}

/// `-` is none, `=` stands before hexadecimal digits, and any other word is a file's name, beside the list.
fn payload(word: &str, folder: &Path) -> Result<Vec<u8>, String> {
    if word == "-" {
        return Ok(Vec::new());
    }
    let bytes = match word.strip_prefix('=') {
        Some(digits) => hexadecimal(digits)?,
        None => fs::read(folder.join(word)).map_err(|e| format!("payload `{word}`: {e}"))?,
    };
    match bytes.len() {
        0..=LONGEST_PAYLOAD => Ok(bytes),
        n => Err(format!("a payload of {n} bytes; 65,535 at most")),
    }
}

fn entry(number_of_line: usize, words: &[&str], folder: &Path) -> Result<Line, String> {
    let [id, kind, flags, gain, param0, param1, bytes] = words else {
        let n = words.len();
        return Err(format!(
            "{n} words; id, kind, flags, gain, param0, param1 and payload are 7"
        ));
    };
    let place = KINDS.iter().position(|name| name == kind);
    Ok(Line {
        number: number_of_line,
        id: number("id", id, 65_535)?,
        kind: place.ok_or(format!("kind `{kind}` is none of {}", KINDS.join(", ")))? as u8,
        flags: number("flags", flags, 255)?,
        gain: number("gain", gain, 255)?,
        params: [
            number("param0", param0, 65_535)?,
            number("param1", param1, 65_535)?,
        ],
        payload: payload(bytes, folder)?,
    })
}

fn header(words: &[&str]) -> Result<[u8; HEADER], String> {
    let [digits] = words else {
        return Err("a header is one word of 20 hexadecimal digits".to_string());
    };
    let bytes = hexadecimal(digits)?;
    bytes
        .try_into()
        .map_err(|b: Vec<u8>| format!("a header of {} bytes; it has 10", b.len()))
}

/// The header and the entries of a list. What stands behind a `#` is not read, nor an empty line.
pub fn read(text: &str, folder: &Path) -> Result<([u8; HEADER], Vec<Line>), Wrong> {
    let (mut head, mut lines) = (None, Vec::<Line>::new());
    let mut ids = HashMap::new();
    for (at, line) in text
        .lines()
        .enumerate()
        .map(|(place, line)| (place + 1, line))
    {
        let words: Vec<&str> = line
            .split('#')
            .next()
            .unwrap_or("")
            .split_whitespace()
            .collect();
        match words[..] {
            [] => {}
            ["header", ..] if head.is_some() => return Err((at, "a second header".to_string())),
            ["header", ref rest @ ..] => head = Some(header(rest).map_err(|why| (at, why))?),
            _ => {
                let entry = entry(at, &words, folder).map_err(|why| (at, why))?;
                if let Some(first) = ids.insert(entry.id, at) {
                    return Err((at, format!("id {} is on line {first} already", entry.id)));
                }
                if lines.len() == MOST_ENTRIES {
                    return Err((at, "a 65th entry; a bank has 64 at most".to_string()));
                }
                lines.push(entry);
            }
        }
    }
    Ok((head.unwrap_or([0; HEADER]), lines))
}

impl Line {
    pub fn entry(&self) -> NewEntry<'_> {
        NewEntry {
            id: self.id,
            kind: self.kind,
            flags: self.flags,
            default_gain_q8: self.gain,
            param0: self.params[0],
            param1: self.params[1],
            payload: &self.payload,
        }
    }
}
