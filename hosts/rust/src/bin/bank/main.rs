//! Makes a bank from a readable list, and lists what a bank holds (docs/BANKS.md).
//! Usage: bank make LIST BANK          writes the bank, or says which line is wrong and why
//!        bank list BANK [COUNT]       prints a list of what it holds; without a count it is the one that `make` lays out

mod lists;

use birchjack::{Bank, NewEntry, bank_of};
use lists::{HEADER, KINDS, Line, number, read};
use std::path::Path;
use std::process::ExitCode;
use std::{env, fs};

const ENTRY: usize = 16;

fn make(list: &str, bank: &str) -> Result<String, String> {
    let text = fs::read_to_string(list).map_err(|e| format!("{list}: {e}"))?;
    let folder = Path::new(list).parent().unwrap_or(Path::new(""));
    let (header, lines) =
        read(&text, folder).map_err(|(line, why)| format!("{list}:{line}: {why}"))?;
    let last = lines.last().map_or(1, |line| line.number);
    let entries: Vec<NewEntry> = lines.iter().map(Line::entry).collect();
    // nothing is left to refuse; should the library find something, it is said where the list ends
    let bytes =
        bank_of(&header, &entries).map_err(|refusal| format!("{list}:{last}: {refusal}"))?;
    fs::write(bank, &bytes).map_err(|e| format!("{bank}: {e}"))?;
    Ok(format!(
        "{bank}: {} entries, {} bytes\n",
        entries.len(),
        bytes.len()
    ))
}

fn hex(bytes: &[u8]) -> String {
    bytes.iter().map(|byte| format!("{byte:02X}")).collect()
}

/// Behind the entries of a bank that was made here the first payload begins, and the first entry says where.
fn count_in(bytes: &[u8]) -> Option<u16> {
    if bytes.len() == HEADER {
        return Some(0);
    }
    let offset = u32::from_le_bytes(bytes.get(HEADER + 10..HEADER + 14)?.try_into().ok()?) as usize;
    let entries = offset.checked_sub(HEADER)?;
    entries
        .is_multiple_of(ENTRY)
        .then_some((entries / ENTRY).try_into().ok()?)
}

/// The line of the entry at a place, found by its id.
fn entry_line(bank: &Bank, place: usize) -> Result<String, String> {
    let at = HEADER + ENTRY * place;
    let id = bank.bytes.get(at..at + 2).ok_or("past the end")?;
    let told = |refusal: birchjack::Refusal| refusal.to_string();
    let entry = bank
        .find(u16::from_le_bytes([id[0], id[1]]))
        .map_err(told)?;
    let payload = match bank.payload(entry.offset, entry.len).map_err(told)? {
        [] => "-".to_string(),
        bytes => format!("={}", hex(bytes)),
    };
    let (kind, gain) = (KINDS[usize::from(entry.kind)], entry.default_gain_q8);
    let (id, flags, param0, param1) = (entry.id, entry.flags, entry.param0, entry.param1);
    Ok(format!(
        "{id} {kind} {flags} {gain} {param0} {param1} {payload}\n"
    ))
}

fn list(name: &str, count: Option<&str>) -> Result<String, String> {
    let bytes = fs::read(name).map_err(|e| format!("{name}: {e}"))?;
    let untold = || format!("{name}: its first entry does not tell how many there are");
    let effect_count = match count {
        Some(word) => number("count", word, 65_535)?,
        None => count_in(&bytes).ok_or_else(untold)?,
    };
    let header = bytes
        .get(..HEADER)
        .ok_or_else(|| format!("{name}: shorter than a header"))?;
    let bank = Bank {
        bytes: &bytes,
        sample_rate_hz: 0,
        effect_count,
    };
    let mut text = format!(
        "header {}\n# id kind flags gain param0 param1 payload\n",
        hex(header)
    );
    for place in 0..usize::from(effect_count) {
        text += &entry_line(&bank, place)
            .map_err(|why| format!("{name}: entry {}: {why}", place + 1))?;
    }
    Ok(text)
}

fn main() -> ExitCode {
    let words: Vec<String> = env::args().skip(1).collect();
    let words: Vec<&str> = words.iter().map(String::as_str).collect();
    let told = match words[..] {
        ["make", from, to] => make(from, to),
        ["list", bank] => list(bank, None),
        ["list", bank, count] => list(bank, Some(count)),
        _ => Err("usage: bank make LIST BANK | bank list BANK [COUNT]".to_string()),
    };
    match told {
        Ok(text) => print!("{text}"),
        Err(why) => {
            eprintln!("bank: {why}");
            return ExitCode::FAILURE;
        }
    }
    ExitCode::SUCCESS
}
