//! Banks: bytes laid out as document 01 has them.

use crate::draw::Draw;

pub const HEADER: usize = 10;
pub const ENTRY: usize = 16;
/// The most bytes that can be lent.
pub const MOST_BYTES: usize = 4_096;
/// The most entries that fit in them.
pub const MOST_ENTRIES: usize = 255;

#[derive(Clone, Copy)]
enum Order {
    Rising,
    Falling,
    Shuffled,
    /// Rising but for two entries.
    Swapped,
}

/// How a bank is drawn. A `one in` of 0 stands for none.
pub struct Style {
    order: Order,
    /// Ids lie below this, or as near to the greatest; there are more of them than entries.
    id_span: u32,
    ids_from_the_top: bool,
    repeats_one_in: u32,
    /// Kind bytes above 5.
    strange_one_in: u32,
    /// Kinds 1, 3, 4 and 5.
    not_carried_one_in: u32,
    /// Payloads beyond the end.
    beyond_one_in: u32,
}

impl Style {
    pub fn draw(draw: &mut Draw, count: usize) -> Self {
        let dense = 2 * count as u32 + 2;
        Self {
            order: draw.pick(&[
                Order::Rising,
                Order::Rising,
                Order::Falling,
                Order::Shuffled,
                Order::Swapped,
            ]),
            id_span: draw.pick(&[dense, dense, 1_000, 65_536]).min(65_536),
            ids_from_the_top: draw.one_in(4),
            repeats_one_in: draw.pick(&[0, 0, 20, 3]),
            strange_one_in: draw.pick(&[0, 0, 0, 60, 12]),
            not_carried_one_in: draw.pick(&[0, 8, 2]),
            beyond_one_in: draw.pick(&[0, 8, 3]),
        }
    }
}

fn happens(draw: &mut Draw, one_in: u32) -> bool {
    one_in > 0 && draw.one_in(one_in)
}

pub struct Bank {
    pub bytes: Vec<u8>,
    pub ids: Vec<u16>,
}

impl Bank {
    /// A bank of that many entries with a tail of so many bytes after them.
    pub fn draw(draw: &mut Draw, count: usize, tail: usize) -> Self {
        let style = Style::draw(draw, count);
        Self::of(draw, count, tail, style)
    }

    /// One most of whose entries can be started.
    pub fn mostly_sound(draw: &mut Draw, count: usize, tail: usize) -> Self {
        let style = Style {
            order: Order::Rising,
            id_span: 2 * count as u32 + 2,
            ids_from_the_top: false,
            repeats_one_in: 0,
            strange_one_in: 0,
            not_carried_one_in: 16,
            beyond_one_in: 16,
        };
        Self::of(draw, count, tail, style)
    }

    fn of(draw: &mut Draw, count: usize, tail: usize, style: Style) -> Self {
        let length = HEADER + ENTRY * count + tail;
        let ids = draw_ids(draw, count, &style);
        let mut bytes: Vec<u8> = (0..HEADER).map(|_| draw.u8()).collect();
        for id in &ids {
            push_entry(&mut bytes, draw, *id, length, &style);
        }
        bytes.extend((0..tail).map(|_| draw.u8()));
        Self { bytes, ids }
    }

    pub fn count(&self) -> u16 {
        self.ids.len() as u16
    }

    /// Mostly an id that is there; else one beside such an id, the least, the greatest, or any.
    pub fn any_id(&self, draw: &mut Draw) -> u16 {
        if self.ids.is_empty() {
            return draw.u16();
        }
        let (first, last) = (self.ids[0], self.ids[self.ids.len() - 1]);
        let (middle, any) = (self.ids[(self.ids.len() - 1) / 2], draw.pick(&self.ids));
        match draw.below(12) {
            0 => first,
            1 => last,
            2 => middle,
            3 => any.wrapping_add(1),
            4 => any.wrapping_sub(1),
            5 => draw.pick(&[0, 65_535]),
            6 => draw.u16(),
            _ => any,
        }
    }
}

/// As many bytes after the entries as are asked for and still fit.
pub fn tail(draw: &mut Draw, count: usize) -> usize {
    let most = MOST_BYTES - HEADER - ENTRY * count;
    let any = draw.below(80) as usize;
    draw.pick(&[0, 0, 1, 15, 16, any, any]).min(most)
}

fn draw_ids(draw: &mut Draw, count: usize, style: &Style) -> Vec<u16> {
    let mut ids: Vec<u16> = Vec::new();
    while ids.len() < count {
        let below = draw.below(style.id_span) as u16;
        let id = match style.ids_from_the_top {
            true => 65_535 - below,
            false => below,
        };
        if !ids.contains(&id) {
            ids.push(id);
        }
    }
    for place in 1..count {
        if happens(draw, style.repeats_one_in) {
            ids[place] = ids[draw.below(place as u32) as usize];
        }
    }
    arrange(draw, &mut ids, style.order);
    ids
}

fn arrange(draw: &mut Draw, ids: &mut [u16], order: Order) {
    let count = ids.len() as u32;
    if count == 0 || matches!(order, Order::Shuffled) {
        return;
    }
    ids.sort_unstable();
    match order {
        Order::Falling => ids.reverse(),
        Order::Swapped => ids.swap(draw.below(count) as usize, draw.below(count) as usize),
        _ => (),
    }
}

fn push_entry(bytes: &mut Vec<u8>, draw: &mut Draw, id: u16, length: usize, style: &Style) {
    let kind = if happens(draw, style.strange_one_in) {
        let any = 6 + draw.below(250) as u8;
        draw.pick(&[6, 255, any])
    } else if happens(draw, style.not_carried_one_in) {
        draw.pick(&[1, 3, 4, 5])
    } else {
        draw.pick(&[0, 2])
    };
    let short = draw.below(60) as u16;
    let (param0, param1) = (draw.u16(), draw.u16());
    let place = match happens(draw, style.beyond_one_in) {
        true => place_beyond(draw, length),
        false => place_within(draw, length),
    };
    let single = [kind, draw.u8(), draw.gain(), draw.u8()];
    let param1 = draw.pick(&[0, 1, 5, short, short, param1]);
    push(bytes, id, single, [param0, param1], place);
}

/// An entry's bytes: its id; kind, flags, gain and the unread byte; its parameters; its payload's offset and length.
pub fn push(bytes: &mut Vec<u8>, id: u16, single: [u8; 4], params: [u16; 2], place: (u32, u16)) {
    bytes.extend(id.to_le_bytes());
    bytes.extend(single);
    bytes.extend(params.map(u16::to_le_bytes).as_flattened());
    bytes.extend(place.0.to_le_bytes());
    bytes.extend(place.1.to_le_bytes());
}

/// A payload that lies in a bank of that length.
pub fn place_within(draw: &mut Draw, length: usize) -> (u32, u16) {
    let length = length as u32;
    let offset = draw.below(length + 1);
    let rest = length - offset;
    match draw.below(8) {
        0 => (length, 0),
        1 => (length.saturating_sub(1), length.min(1) as u16),
        2 => (0, length as u16),
        3 => (0, 0),
        4 => (offset, rest as u16),
        _ => (offset, draw.below(rest + 1) as u16),
    }
}

/// A payload that does not, by one byte or by many. Where the present rules run half of them lie around an edge, on either side of it.
pub fn place_beyond(draw: &mut Draw, length: usize) -> (u32, u16) {
    let length = length as u32;
    if draw.present && draw.one_in(2) {
        let offset = draw.pick(&offsets(length));
        return (offset, draw.pick(&lengths(length, offset)));
    }
    let offset = draw.below(length + 1);
    match draw.below(8) {
        0 => (length, 1),
        1 => (length + 1, 0),
        2 => (length.saturating_sub(1), 2),
        3 => (0, length as u16 + 1),
        4 => (0xFFFF_FFFF, 0xFFFF),
        5 => (0xFFFF_FFFF, 1),
        6 => (0xFFFF_FFFF - draw.below(100), draw.u16()),
        _ => (offset, (length - offset + 1) as u16),
    }
}

/// Offsets around every edge of a bank of that length: its two ends, where sixteen bits end, where a sign would begin, and where 2^32 is within a
/// payload's reach, or comes within it.
pub fn offsets(bank: u32) -> [u32; 18] {
    let (half, top) = (0x8000_0000, u32::MAX);
    [
        0,
        1,
        bank - 1,
        bank,
        bank + 1,
        bank + 2,
        65_535,
        65_536,
        65_536 + bank,
        half - 1,
        half,
        half + bank,
        top - 65_535,
        top - 65_534,
        top - bank,
        top - bank + 1,
        top - 1,
        top,
    ]
}

/// Lengths from an offset on: none, one byte, the most; and those that reach the bank's end and 2^32, or in their low sixteen bits would, with
/// their neighbours.
pub fn lengths(bank: u32, offset: u32) -> [u16; 9] {
    let to_end = bank.wrapping_sub(offset) as u16;
    let to_top = 0u32.wrapping_sub(offset) as u16;
    let around = |length: u16| [length.wrapping_sub(1), length, length.wrapping_add(1)];
    let ([a, b, c], [d, e, f]) = (around(to_end), around(to_top));
    [0, 1, u16::MAX, a, b, c, d, e, f]
}
