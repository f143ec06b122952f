//! The proved calls of Birchjack, the corridor sounder's mixer, over its static library. No call has a precondition that these functions
//! leave to their caller, none keeps what it is lent, and none has state between calls. The rules are the present ones (document 02): a gain
//! of 255 hands the sample through. Only a script may open document 01's box, by its record 10.
//!
//! SAFETY of every call below: the library asks that each pointer is valid for its length and that what is written is no other's during
//! the call, and a slice or a reference is that.

// The example of the page is a test.
#[cfg(doctest)]
#[doc = include_str!("../../../docs/HOSTS.md")]
struct Page;

mod bank;
pub mod evacuation;
pub mod lengths;
pub mod planning;
mod player;
pub mod raw;
mod refusal;
mod script;
mod writing;

pub use bank::{Bank, Entry};
pub use player::{DutyMode, Leaving, Played, Player, Policy, PolyBlep, Request, Waited, Waveform};
pub use refusal::Refusal;
pub use script::{Ran, answers, answers_of, sound, sound_of};
pub use writing::{NewEntry, bank_of, write_bank};

/// A sample by a gain in 256ths, floored; 255 hands it through.
pub fn gain(sample: i8, gain_q8: u8) -> i8 {
    unsafe { raw::birchjack_gain(sample, gain_q8) }
}

/// From a towards b by a fraction in 256ths, truncated.
pub fn lerp(a: i8, b: i8, fraction: u8) -> i8 {
    unsafe { raw::birchjack_lerp(a, b, fraction) }
}

/// The gains of a pan, left and right; 128 is the middle.
pub fn pan_gains(pan_q8: u8) -> (u8, u8) {
    let mut out = [0; 2];
    unsafe { raw::birchjack_pan_gains(pan_q8, &mut out) };
    (out[0], out[1])
}

/// What a 32-bit phase gains with each sample; 0 for a rate of 0.
pub fn phase_increment(freq_hz: u32, sample_rate_hz: u32) -> u32 {
    unsafe { raw::birchjack_phase_increment(freq_hz, sample_rate_hz) }
}

/// The sine at an index of 256.
pub fn sine(index: u8) -> i8 {
    unsafe { raw::birchjack_sine(index) }
}

/// The bus limiter alone, for sums in -2,048..2,032.
pub fn limit(sum: i32) -> Result<i8, Refusal> {
    let mut out = 0;
    Refusal::read(unsafe { raw::birchjack_limit(sum, &mut out) })?;
    Ok(out)
}

/// A sample's compare value in a period of at least 2.
pub fn duty_of(sample: i8, period: u16) -> Result<u16, Refusal> {
    let mut out = 0;
    Refusal::read(unsafe { raw::birchjack_duty_of(sample, period, &mut out) })?;
    Ok(out)
}

/// What a fade of so many milliseconds gains with each frame, of 255. The product of the two is taken modulo 2^32.
pub fn fade_step(duration_ms: u16, sample_rate_hz: u32) -> u8 {
    unsafe { raw::birchjack_fade_step(duration_ms, sample_rate_hz) }
}

/// An envelope's times in milliseconds and its sustain level.
#[derive(Clone, Copy, Debug, PartialEq, Eq)]
pub struct Envelope {
    pub attack_ms: u16,
    pub decay_ms: u16,
    pub sustain_q8: u8,
    pub release_ms: u16,
}

impl Envelope {
    /// The levels of an envelope that is triggered, ticked once for each cell of `held`, released, and ticked once for each cell of `left`.
    /// Refused, it writes nothing.
    pub fn levels(
        &self,
        sample_rate_hz: u32,
        held: &mut [u8],
        left: &mut [u8],
    ) -> Result<(), Refusal> {
        Refusal::read(unsafe {
            raw::birchjack_envelope(
                self.attack_ms,
                self.decay_ms,
                self.sustain_q8,
                self.release_ms,
                sample_rate_hz,
                held.as_mut_ptr(),
                held.len(),
                left.as_mut_ptr(),
                left.len(),
            )
        })
    }
}
