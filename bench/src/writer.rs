//! A writer of banks in Rust, with the standard library's sort: what document 02's T-05 asks, for the comparison in speed.

/// An entry as it is given, and where its payload begins among those lent.
#[derive(Clone, Copy, Default)]
struct Entry {
    id: u16,
    kind: u8,
    flags: u8,
    gain: u8,
    param0: u16,
    param1: u16,
    length: u32,
    start: usize,
}

const HEADER: usize = 10;
const ENTRY: usize = 16;
const GIVEN: usize = 13;
const MOST: usize = 64;

impl Entry {
    fn read(bytes: &[u8; GIVEN], start: usize) -> Entry {
        let wide = |at: usize| u16::from_be_bytes([bytes[at], bytes[at + 1]]);
        Entry {
            id: wide(0),
            kind: bytes[2],
            flags: bytes[3],
            gain: bytes[4],
            param0: wide(5),
            param1: wide(7),
            length: (wide(9) as u32) << 16 | wide(11) as u32,
            start,
        }
    }

    fn write(&self, offset: usize, cells: &mut [u8; ENTRY]) {
        cells[..2].copy_from_slice(&self.id.to_le_bytes());
        cells[2..6].copy_from_slice(&[self.kind, self.flags, self.gain, 0]);
        cells[6..8].copy_from_slice(&self.param0.to_le_bytes());
        cells[8..10].copy_from_slice(&self.param1.to_le_bytes());
        cells[10..14].copy_from_slice(&(offset as u32).to_le_bytes());
        cells[14..].copy_from_slice(&(self.length as u16).to_le_bytes());
    }
}

/// The entries given, each with where its payload begins, and where the last one ends; or 13.
fn read<'a>(
    given: &[[u8; GIVEN]],
    entries: &'a mut [Entry; MOST],
) -> Result<(&'a mut [Entry], usize), u8> {
    let entries = entries.get_mut(..given.len()).ok_or(13)?;
    let mut start = 0;
    for (entry, bytes) in entries.iter_mut().zip(given) {
        *entry = Entry::read(bytes, start);
        if entry.kind > 5 || entry.length > 65_535 {
            return Err(13);
        }
        start += entry.length as usize;
    }
    Ok((entries, start))
}

pub fn write(
    header: &[u8; HEADER],
    given: &[u8],
    payloads: &[u8],
    out: &mut [u8],
) -> Result<usize, u8> {
    let mut entries = [Entry::default(); MOST];
    let (entries, lent) = read(given.as_chunks().0, &mut entries)?;
    entries.sort_unstable_by_key(|entry| entry.id);
    if lent != payloads.len() || entries.windows(2).any(|pair| pair[0].id == pair[1].id) {
        return Err(13);
    }
    let mut offset = HEADER + ENTRY * entries.len();
    let end = offset + payloads.len();
    let (front, rest) = out.split_at_mut_checked(offset).ok_or(14)?;
    let rest = rest.get_mut(..payloads.len()).ok_or(14)?;
    front[..HEADER].copy_from_slice(header);
    let mut place = 0;
    for (entry, cells) in entries.iter().zip(front[HEADER..].as_chunks_mut().0) {
        let length = entry.length as usize;
        entry.write(offset, cells);
        rest[place..place + length].copy_from_slice(&payloads[entry.start..entry.start + length]);
        (offset, place) = (offset + length, place + length);
    }
    Ok(end)
}
