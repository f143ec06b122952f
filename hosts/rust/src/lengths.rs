//! Lengths in samples with what is left over, so that many in a row do not drift (docs/LENGTHS.md). Each call is refused at a rate above
//! 65,537.

use crate::{Refusal, raw};

/// Whole samples, and the remainder in thousandths of one, below 1,000.
#[derive(Clone, Copy, Debug, PartialEq, Eq)]
pub struct Length {
    pub samples: u32,
    pub remainder: u32,
}

/// The same of a whole list.
#[derive(Clone, Copy, Debug, PartialEq, Eq)]
pub struct Total {
    pub samples: u64,
    pub remainder: u64,
}

/// A length: ms × rate is 1000 × samples + remainder.
pub fn length(ms: u16, sample_rate_hz: u32) -> Result<Length, Refusal> {
    let mut out = [0; 2];
    Refusal::read(unsafe { raw::birchjack_length(ms, sample_rate_hz, &mut out) })?;
    let [samples, remainder] = out;
    Ok(Length { samples, remainder })
}

/// The same with the remainder of the one before, or any other number of thousandths, added before it is divided.
pub fn carrying(ms: u16, sample_rate_hz: u32, remainder: u32) -> Result<Length, Refusal> {
    let mut out = [0; 2];
    Refusal::read(unsafe {
        raw::birchjack_length_carrying(ms, sample_rate_hz, remainder, &mut out)
    })?;
    let [samples, remainder] = out;
    Ok(Length { samples, remainder })
}

/// The total of a list, in one call: what `carrying` gives in turn, begun with remainder 0.
pub fn total(lengths: &[u16], sample_rate_hz: u32) -> Result<Total, Refusal> {
    let mut out = [0; 2];
    Refusal::read(unsafe {
        raw::birchjack_total_length(lengths.as_ptr(), lengths.len(), sample_rate_hz, &mut out)
    })?;
    let [samples, remainder] = out;
    Ok(Total { samples, remainder })
}
