//! A bank of effects on a slice.

use crate::{Refusal, raw};

/// A bank's bytes with its rate and its number of entries. It is looked at by each call anew: a rate above 65,537 and entries that go past
/// the bytes are refused there.
#[derive(Clone, Copy, Debug)]
pub struct Bank<'a> {
    pub bytes: &'a [u8],
    pub sample_rate_hz: u32,
    pub effect_count: u16,
}

/// An entry of a bank.
#[derive(Clone, Copy, Debug, PartialEq, Eq)]
pub struct Entry {
    pub id: u16,
    pub kind: u8,
    pub flags: u8,
    pub default_gain_q8: u8,
    pub param0: u16,
    pub param1: u16,
    pub offset: u32,
    pub len: u32,
}

impl<'a> Bank<'a> {
    /// The entry with an id.
    pub fn find(&self, id: u16) -> Result<Entry, Refusal> {
        let mut out = [0; 8];
        Refusal::read(unsafe {
            raw::birchjack_find(
                self.bytes.as_ptr(),
                self.bytes.len(),
                self.sample_rate_hz,
                self.effect_count,
                id,
                &mut out,
            )
        })?;
        let [id, kind, flags, gain, param0, param1, offset, len] = out;
        // Each field fits: it was widened from the type that it has here.
        Ok(Entry {
            id: id as u16,
            kind: kind as u8,
            flags: flags as u8,
            default_gain_q8: gain as u8,
            param0: param0 as u16,
            param1: param1 as u16,
            offset,
            len,
        })
    }

    /// The part of the bytes from an offset, of a length.
    pub fn payload(&self, offset: u32, len: u32) -> Result<&'a [u8], Refusal> {
        Refusal::read(unsafe {
            raw::birchjack_payload(
                self.bytes.as_ptr(),
                self.bytes.len(),
                self.sample_rate_hz,
                self.effect_count,
                offset,
                len,
            )
        })?;
        Ok(&self.bytes[offset as usize..][..len as usize])
    }

    /// The payload of the entry with an id.
    pub fn payload_of(&self, id: u16) -> Result<&'a [u8], Refusal> {
        let mut out = [0; 2];
        Refusal::read(unsafe {
            raw::birchjack_payload_of(
                self.bytes.as_ptr(),
                self.bytes.len(),
                self.sample_rate_hz,
                self.effect_count,
                id,
                &mut out,
            )
        })?;
        let [offset, len] = out;
        Ok(&self.bytes[offset as usize..][..len as usize])
    }
}
