//! The evacuation pattern, three pulses and a long pause, and its reader (docs/STANDARD.md). Each call is refused at a rate below 20 or
//! above 65,537.

use crate::{Refusal, raw};

/// How many samples a cycle has.
pub fn cycle(sample_rate_hz: u32) -> Result<u32, Refusal> {
    let mut out = 0;
    Refusal::read(unsafe { raw::birchjack_evacuation_cycle(sample_rate_hz, &mut out) })?;
    Ok(out)
}

/// Whether the signal sounds at a sample, counted from its start.
pub fn sounds(sample_rate_hz: u32, sample: u64) -> Result<bool, Refusal> {
    let mut out = 0;
    Refusal::read(unsafe { raw::birchjack_evacuation_sounds(sample_rate_hz, sample, &mut out) })?;
    Ok(out == 1)
}

/// The samples from `first` on, one to a cell, 1 on and 0 off. Refused, it writes nothing.
pub fn fill(sample_rate_hz: u32, first: u64, out: &mut [u8]) -> Result<(), Refusal> {
    Refusal::read(unsafe {
        raw::birchjack_evacuation_fill(sample_rate_hz, first, out.as_mut_ptr(), out.len())
    })
}

/// Whether a recording, a byte a sample, 1 on and 0 off, is one or more whole cycles, each phase within one tenth of its length.
pub fn reads(sample_rate_hz: u32, recording: &[u8]) -> Result<bool, Refusal> {
    let mut out = 0;
    Refusal::read(unsafe {
        raw::birchjack_evacuation_reads(
            sample_rate_hz,
            recording.as_ptr(),
            recording.len(),
            &mut out,
        )
    })?;
    Ok(out == 1)
}
