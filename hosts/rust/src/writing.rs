//! Writing a bank: entries by rising id, then their payloads in the same order without gaps.

use crate::{Refusal, raw};

/// An entry as it is given, with its payload.
#[derive(Clone, Copy, Debug)]
pub struct NewEntry<'a> {
    pub id: u16,
    /// 0 to 5 (document 01's kinds).
    pub kind: u8,
    pub flags: u8,
    pub default_gain_q8: u8,
    pub param0: u16,
    pub param1: u16,
    /// At most 65,535 bytes.
    pub payload: &'a [u8],
}

impl NewEntry<'_> {
    /// The thirteen bytes that the library takes. A length of 2^32 or more is given as 2^32 - 1, which is refused too.
    fn bytes(&self) -> Vec<u8> {
        let length = u32::try_from(self.payload.len()).unwrap_or(u32::MAX);
        let mut bytes = self.id.to_be_bytes().to_vec();
        bytes.extend([self.kind, self.flags, self.default_gain_q8]);
        bytes.extend(self.param0.to_be_bytes());
        bytes.extend(self.param1.to_be_bytes());
        bytes.extend(length.to_be_bytes());
        bytes
    }
}

/// Writes the bank of up to 64 entries with ids of their own to the front of `out`, and gives its length. Refused, it writes nothing;
/// cells behind the bank are not written.
pub fn write_bank(
    header: &[u8; 10],
    entries: &[NewEntry],
    out: &mut [u8],
) -> Result<usize, Refusal> {
    let given: Vec<u8> = entries.iter().flat_map(NewEntry::bytes).collect();
    let payloads: Vec<u8> = entries.iter().flat_map(|e| e.payload).copied().collect();
    let mut len = 0;
    Refusal::read(unsafe {
        raw::birchjack_write_bank(
            header,
            given.as_ptr(),
            given.len(),
            payloads.as_ptr(),
            payloads.len(),
            out.as_mut_ptr(),
            out.len(),
            &mut len,
        )
    })?;
    Ok(len)
}

/// The same in a buffer of its own length.
pub fn bank_of(header: &[u8; 10], entries: &[NewEntry]) -> Result<Vec<u8>, Refusal> {
    let payloads: usize = entries.iter().map(|entry| entry.payload.len()).sum();
    let mut bytes = vec![0; 10 + 16 * entries.len() + payloads];
    let len = write_bank(header, entries, &mut bytes)?;
    bytes.truncate(len);
    Ok(bytes)
}
