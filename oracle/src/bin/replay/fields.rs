//! A line's bytes, and the fields taken from them.

/// No good line has more digits.
pub const LONGEST: usize = 8_194;

/// A line that is no record, or has a field that its record does not allow.
pub struct Bad;

pub type Answered = Result<(), Bad>;

pub fn decode(line: &[u8], bytes: &mut Vec<u8>) -> Answered {
    bytes.clear();
    if line.len() > LONGEST || !line.len().is_multiple_of(2) {
        return Err(Bad);
    }
    for pair in line.chunks_exact(2) {
        bytes.push(digit(pair[0])? << 4 | digit(pair[1])?);
    }
    Ok(())
}

fn digit(byte: u8) -> Result<u8, Bad> {
    match byte {
        b'0'..=b'9' => Ok(byte - b'0'),
        b'A'..=b'F' => Ok(byte - b'A' + 10),
        _ => Err(Bad),
    }
}

/// The bytes after a record's code, taken from the front. Their number was checked before.
pub struct Fields<'a>(pub &'a [u8]);

impl Fields<'_> {
    fn take<const WIDTH: usize>(&mut self) -> [u8; WIDTH] {
        let (field, rest) = self.0.split_first_chunk().expect("a field of the record");
        self.0 = rest;
        *field
    }

    pub fn u8(&mut self) -> u8 {
        u8::from_be_bytes(self.take())
    }

    pub fn i8(&mut self) -> i8 {
        i8::from_be_bytes(self.take())
    }

    pub fn u16(&mut self) -> u16 {
        u16::from_be_bytes(self.take())
    }

    pub fn u24(&mut self) -> u32 {
        let [a, b, c] = self.take();
        u32::from_be_bytes([0, a, b, c])
    }

    pub fn u32(&mut self) -> u32 {
        u32::from_be_bytes(self.take())
    }

    pub fn i32(&mut self) -> i32 {
        i32::from_be_bytes(self.take())
    }

    pub fn flag(&mut self) -> Result<bool, Bad> {
        self.one_of(&[false, true])
    }

    /// A choice by its number in the list.
    pub fn one_of<T: Copy>(&mut self, all: &[T]) -> Result<T, Bad> {
        all.get(self.u8() as usize).copied().ok_or(Bad)
    }
}
