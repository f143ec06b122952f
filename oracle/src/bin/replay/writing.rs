//! Writing a bank: record 83. The original has no writer; this is document 02's T-05, read plainly and apart from the port.

use crate::answers::Answers;
use crate::fields::{Answered, Bad, Fields};
use crate::numbers::{BAD_ENTRIES, Ruled, SHORT_BUFFER};
use std::collections::BTreeMap;

const HEADER: usize = 10;
const MOST_ENTRIES: usize = 64;
const LAST_KIND: u8 = 5;
const LONGEST_PAYLOAD: u32 = 65_535;

/// An entry's bytes in the record, and in a bank.
const GIVEN: usize = 13;
const ENTRY: usize = 16;

const MOST_ROOM: usize = 4_096;

/// What a cell holds before the call.
const BEFORE: u8 = 0xA5;

#[derive(Clone, Copy)]
struct Entry {
    id: u16,
    kind: u8,
    flags: u8,
    gain: u8,
    params: [u16; 2],
    length: u32,
}

impl Entry {
    fn read(fields: &mut Fields) -> Self {
        Self {
            id: fields.u16(),
            kind: fields.u8(),
            flags: fields.u8(),
            gain: fields.u8(),
            params: [fields.u16(), fields.u16()],
            length: fields.u32(),
        }
    }

    fn bytes(&self, offset: usize) -> Vec<u8> {
        let mut bytes = self.id.to_le_bytes().to_vec();
        bytes.extend([self.kind, self.flags, self.gain, 0]);
        bytes.extend(self.params.map(u16::to_le_bytes).as_flattened());
        bytes.extend((offset as u32).to_le_bytes());
        bytes.extend((self.length as u16).to_le_bytes());
        bytes
    }
}

/// Each entry with its own bytes under its id, or 13.
fn by_id<'a>(entries: &[Entry], payloads: &'a [u8]) -> Ruled<BTreeMap<u16, (Entry, &'a [u8])>> {
    if entries.len() > MOST_ENTRIES {
        return Err(BAD_ENTRIES);
    }
    let (mut found, mut rest) = (BTreeMap::new(), payloads);
    for entry in entries {
        let fits = entry.kind <= LAST_KIND && entry.length <= LONGEST_PAYLOAD;
        let split = rest.split_at_checked(entry.length as usize);
        let (own, after) = split.filter(|_| fits).ok_or(BAD_ENTRIES)?;
        if found.insert(entry.id, (*entry, own)).is_some() {
            return Err(BAD_ENTRIES);
        }
        rest = after;
    }
    if rest.is_empty() {
        Ok(found)
    } else {
        Err(BAD_ENTRIES)
    }
}

fn bank(header: &[u8], entries: &[Entry], payloads: &[u8], room: usize) -> Ruled<Vec<u8>> {
    let sorted = by_id(entries, payloads)?;
    let mut offset = HEADER + ENTRY * sorted.len();
    let (mut front, mut back) = (header.to_vec(), Vec::new());
    for (entry, payload) in sorted.values() {
        front.extend(entry.bytes(offset));
        back.extend_from_slice(payload);
        offset += payload.len();
    }
    front.extend(back);
    if front.len() > room {
        Err(SHORT_BUFFER)
    } else {
        Ok(front)
    }
}

pub fn write(fields: &mut Fields, answers: &mut Answers) -> Answered {
    let (header, rest) = fields.0.split_at(HEADER);
    fields.0 = rest;
    let (room, count) = (fields.u16() as usize, fields.u8() as usize);
    if room > MOST_ROOM || fields.0.len() < GIVEN * count {
        return Err(Bad);
    }
    let entries: Vec<Entry> = (0..count).map(|_| Entry::read(fields)).collect();
    let written = bank(header, &entries, fields.0, room);
    let mut cells = vec![BEFORE; room];
    if let Ok(bytes) = &written {
        cells[..bytes.len()].copy_from_slice(bytes);
    }
    answers.hex(written.as_ref().err().copied().unwrap_or(0), 2);
    answers.hex(written.map_or(0, |bytes| bytes.len() as i64), 8);
    for cell in cells {
        answers.hex(cell as i64, 2);
    }
    answers.end_line();
    Ok(())
}
