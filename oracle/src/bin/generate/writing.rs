//! Writing a bank: record 83.

use crate::draw::Draw;
use crate::script::{Field, Line, Script, record, u8, u16, u32};

const HEADER: [u8; 10] = [0xB1, 0x4C, 3, 4, 5, 6, 7, 8, 9, 255];

/// The bytes of a header and of an entry in a bank.
const FRONT: usize = 10;
const ENTRY: usize = 16;

const MOST_ROOM: usize = 4_096;

/// As many bytes as a line can hold after its first fields, and those of an entry there.
const MOST_BYTES: usize = 4_083;
const GIVEN: usize = 13;

#[derive(Clone)]
struct Entry {
    id: u16,
    kind: u8,
    flags: u8,
    gain: u8,
    params: [u16; 2],
    length: u32,
}

impl Entry {
    /// An entry of its own for each id, of any kind and with a payload of so many bytes.
    fn of(id: u16, length: u32) -> Self {
        Self {
            id,
            kind: (id % 6) as u8,
            flags: id as u8 ^ 0x5A,
            gain: 255 - id as u8,
            params: [id ^ 0x1234, !id],
            length,
        }
    }

    fn fields(&self) -> [Field; 7] {
        let [first, second] = self.params.map(u16);
        let (id, length) = (u16(self.id), u32(self.length));
        let [kind, flags, gain] = [self.kind, self.flags, self.gain].map(u8);
        [id, kind, flags, gain, first, second, length]
    }
}

/// Entries with their payloads end to end.
#[derive(Clone)]
struct Given {
    header: [u8; 10],
    entries: Vec<Entry>,
    payloads: Vec<u8>,
}

impl Given {
    /// Entries of these ids and lengths, each byte of a payload telling whose it is.
    fn of(parts: &[(u16, u32)]) -> Self {
        let own = |(id, length): &(u16, u32)| vec![*id as u8 ^ 0xC3; *length as usize];
        Self {
            header: HEADER,
            entries: parts.iter().map(|part| Entry::of(part.0, part.1)).collect(),
            payloads: parts.iter().flat_map(own).collect(),
        }
    }

    fn size(&self) -> usize {
        FRONT + ENTRY * self.entries.len() + self.payloads.len()
    }

    fn line(&self, room: usize) -> Line {
        let mut fields: Vec<Field> = self.header.map(u8).to_vec();
        fields.extend([u16(room as u16), u8(self.entries.len() as u8)]);
        fields.extend(self.entries.iter().flat_map(Entry::fields));
        fields.extend(self.payloads.iter().map(|byte| u8(*byte)));
        record(0x83, &fields)
    }

    /// In buffers that are too short by one byte, just long enough and longer, and in none.
    fn around(&self, script: &mut Script) {
        for room in [0, self.size() - 1, self.size(), self.size() + 3] {
            script.add(&self.line(room.min(MOST_ROOM)));
        }
    }
}

const PARTS: [(u16, u32); 4] = [(300, 2), (7, 0), (65_535, 5), (0, 1)];

/// Three entries in every order, with their payloads.
fn orders(script: &mut Script) {
    for [a, b, c] in [
        [0, 1, 2],
        [0, 2, 1],
        [1, 0, 2],
        [1, 2, 0],
        [2, 0, 1],
        [2, 1, 0],
    ] {
        let given = Given::of(&[PARTS[a], PARTS[b], PARTS[c]]);
        script.add(&given.line(given.size()));
    }
}

/// Each reason for 13 alone, at every entry, in a buffer that is long enough and in none.
fn refused(script: &mut Script) {
    let good = Given::of(&PARTS);
    let mut add = |given: &Given| {
        script.add(&given.line(good.size()));
        script.add(&given.line(0));
    };
    for place in 0..PARTS.len() {
        for kind in [5, 6, 255] {
            let mut other = good.clone();
            other.entries[place].kind = kind;
            add(&other);
        }
        // 65,536 and 2^32 − 1 are refused whatever was lent; the lengths add up to one more or less with the other two.
        let own = PARTS[place].1;
        for length in [65_535, 65_536, u32::MAX, own + 1, own.wrapping_sub(1)] {
            let mut other = good.clone();
            other.entries[place].length = length;
            add(&other);
        }
        for twin in 0..PARTS.len() {
            let mut other = good.clone();
            other.entries[place].id = PARTS[twin].0;
            add(&other);
        }
    }
    for lent in [0, 7, 9] {
        let mut other = good.clone();
        other.payloads.resize(lent, 0xEE);
        add(&other);
    }
    // Lengths of 2^32 − 1 and 1, which add up to the nothing that is lent if they wrap.
    let mut wrapping = Given::of(&[(1, 0), (2, 0)]);
    (wrapping.entries[0].length, wrapping.entries[1].length) = (u32::MAX, 1);
    add(&wrapping);
}

/// 0, 1, 63 and 64 entries and more than that, with rising and falling ids.
fn counts(script: &mut Script) {
    for count in [0, 1, 2, 63, 64, 65, 255] {
        let rising: Vec<(u16, u32)> = (0..count).map(|id| (257 * id, id as u32 % 3)).collect();
        let falling: Vec<(u16, u32)> = rising.iter().rev().copied().collect();
        for parts in [rising, falling] {
            let given = Given::of(&parts);
            script.add(&given.line(given.size().min(MOST_ROOM)));
        }
    }
}

/// The longest line that is good, and the longest bank.
fn longest(script: &mut Script) {
    let given = Given::of(&[(9, 0), (8, (MOST_BYTES - 2 * GIVEN) as u32)]);
    script.add(&given.line(MOST_ROOM));
    let given = Given::of(&[(9, 54), (8, (MOST_ROOM - FRONT - 2 * ENTRY - 54) as u32)]);
    script.add(&given.line(MOST_ROOM));
    let given = Given::of(&[(9, 55), (8, (MOST_ROOM - FRONT - 2 * ENTRY - 54) as u32)]);
    script.add(&given.line(MOST_ROOM));
}

/// For the recorded list.
pub fn recorded(script: &mut Script) {
    Given::of(&PARTS).around(script);
    Given::of(&[]).around(script);
    orders(script);
    refused(script);
    counts(script);
    longest(script);
}

/// Also every pair of ids that differ in one bit, and every kind.
pub fn banks(script: &mut Script) {
    recorded(script);
    for bit in 0..16 {
        for id in [0, 0x5555, u16::MAX] {
            let given = Given::of(&[(id, 3), (id ^ (1 << bit), 2)]);
            script.add(&given.line(given.size()));
        }
    }
    for kind in 0..=255 {
        let mut given = Given::of(&PARTS);
        given.entries[1].kind = kind;
        script.add(&given.line(given.size()));
    }
}

/// Mostly a few entries of ids of their own, and whole payloads; at times one thing is spoilt.
fn any_given(draw: &mut Draw) -> Given {
    let count = match draw.one_in(12) {
        true => 60 + draw.below(8),
        false => draw.below(9),
    };
    let (first, step) = (draw.bits() as u16, draw.bits() as u16 | 1);
    let id = |place: u32| first.wrapping_add(step.wrapping_mul(place as u16));
    let mut given = Given::of(&[]);
    given.header = [(); 10].map(|()| draw.u8());
    for place in 0..count {
        let length = draw.pick(&[0, 1, 2, 5, 17]);
        given.payloads.extend((0..length).map(|_| draw.u8()));
        given.entries.push(Entry {
            id: id(place),
            kind: draw.below(6) as u8,
            flags: draw.u8(),
            gain: draw.u8(),
            params: [draw.u16(), draw.u16()],
            length,
        });
    }
    if count > 0 && draw.one_in(4) {
        spoil(draw, &mut given);
    }
    given
}

fn spoil(draw: &mut Draw, given: &mut Given) {
    let [place, twin] = [(); 2].map(|()| draw.below(given.entries.len() as u32) as usize);
    match draw.below(4) {
        0 => given.entries[place].kind = draw.u8(),
        1 => given.entries[place].length = draw.u32(),
        2 => given.entries[place].id = given.entries[twin].id,
        _ => given.payloads.push(draw.u8()),
    }
}

pub fn any_bank(draw: &mut Draw) -> Line {
    let given = any_given(draw);
    let size = given.size();
    let other = draw.below(MOST_ROOM as u32 / 16) as usize;
    let room = draw.pick(&[size, size, size, size + 9, size - 1, other]);
    given.line(room.min(MOST_ROOM))
}

pub fn with_room(draw: &mut Draw, rooms: &[u16]) -> Line {
    let given = any_given(draw);
    given.line(draw.pick(rooms) as usize)
}

/// Cut before the end of its last entry, at a whole byte.
pub fn cut_short(draw: &mut Draw) -> Line {
    let mut given = any_given(draw);
    if given.entries.is_empty() {
        given = Given::of(&PARTS);
    }
    let mut line = given.line(0);
    let entries = GIVEN * given.entries.len();
    line.truncate(28 + 2 * draw.below(entries as u32) as usize);
    line
}
