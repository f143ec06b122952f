//! Scripts, and the replay program run on them.

use std::io::Write;
use std::process::{Command, Stdio};

/// Two voices, 8,000 Hz, period 1,000, Linear, master gain 255, LowestPriorityOldest.
pub const OPEN: &str = "100200001F4003E800FF00";

/// Ids 1 to 6 have the kinds 0 to 5 and no payload; 7 is a tone and 8 is of kind 3, both with a payload that ends a byte
/// beyond the bank; 9 is of kind 6.
pub const COUNT: u16 = 9;

pub const LENGTH: u32 = 10 + 16 * 9;

/// Attack 2 ms, decay 3 ms, sustain 100, release 4 ms.
pub const PAD: &str = "00020003640004";

pub fn answers(script: &[&str]) -> Vec<String> {
    let mut replay = Command::new(env!("CARGO_BIN_EXE_replay"))
        .stdin(Stdio::piped())
        .stdout(Stdio::piped())
        .spawn()
        .unwrap();
    let mut input = replay.stdin.take().unwrap();
    let script = script.join("\n");
    // Beside the reading: the program stops reading where its answers are not taken.
    let written = std::thread::spawn(move || input.write_all(script.as_bytes()));
    let output = replay.wait_with_output().unwrap();
    written.join().unwrap().unwrap();
    assert!(output.status.success());
    let text = String::from_utf8(output.stdout).unwrap();
    text.lines().map(String::from).collect()
}

/// The last answer to a script.
pub fn last(script: &[&str]) -> String {
    answers(script).pop().unwrap()
}

pub fn hex(bytes: &[u8]) -> String {
    bytes.iter().map(|byte| format!("{byte:02X}")).collect()
}

pub fn entry(id: u16, kind: u8, offset: u32, length: u16) -> Vec<u8> {
    let mut bytes = id.to_le_bytes().to_vec();
    // Flags, gain, the unread byte; 440 Hz; 150 ms or as a ratio.
    bytes.extend([kind, 1, 200, 0xEE]);
    bytes.extend(440u16.to_le_bytes());
    bytes.extend(150u16.to_le_bytes());
    bytes.extend(offset.to_le_bytes());
    bytes.extend(length.to_le_bytes());
    bytes
}

pub fn bank_bytes() -> Vec<u8> {
    let mut bytes = vec![0; 10];
    for id in 1..=6 {
        bytes.extend(entry(id, id as u8 - 1, LENGTH, 0));
    }
    bytes.extend(entry(7, 0, LENGTH, 1));
    bytes.extend(entry(8, 3, 0, LENGTH as u16 + 1));
    bytes.extend(entry(9, 6, 0, 0));
    assert_eq!(bytes.len(), LENGTH as usize);
    bytes
}

pub fn lend() -> String {
    format!("12{}", hex(&bank_bytes()))
}

pub fn set() -> String {
    format!("1100001F40{COUNT:04X}")
}

pub fn play(id: u16, priority: u8) -> String {
    format!("13{id:04X}{PAD}{priority:02X}")
}

pub fn fade(id: u16) -> String {
    format!("14{id:04X}0014{PAD}")
}

/// Fields of 16 digits.
pub fn fields(line: &str) -> Vec<i64> {
    let digits = line.as_bytes().chunks(16);
    let value = |field| u64::from_str_radix(str::from_utf8(field).unwrap(), 16).unwrap() as i64;
    digits.map(value).collect()
}
