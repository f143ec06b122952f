//! Refusals of an engine's calls. The original decides wherever it has the refusal itself; the ones that the port adds (7 and 10) are
//! found here, in their place among the others.

use super::PAYLOAD_NUMBERS;
use super::original::bank::{EffectEntry, SoundBank};
use super::original::engine::AudioEngine;
use super::original::envelope::AdsrSpec;
use super::original::error::AudioError;
use super::original::tier::EffectKind;
use crate::numbers::{
    BANK_MISMATCH, INVALID_KIND, NO_BANK, NOT_CARRIED, NOT_FOUND, Ruled, VOICE_BUSY,
};

/// An engine between two calls.
pub type Engine<const N: usize> = AudioEngine<'static, N>;

pub fn number(error: AudioError) -> i64 {
    match error {
        AudioError::VoiceBusy => VOICE_BUSY,
        AudioError::NoBank => NO_BANK,
        AudioError::EffectNotFound => NOT_FOUND,
        AudioError::InvalidEffectKind => INVALID_KIND,
        _ => {
            let mut numbers = PAYLOAD_NUMBERS.into_iter();
            let found = numbers.find(|known| known.0 == error);
            found.expect("an error of a call that is carried over").1
        }
    }
}

/// The engine's bank over the bytes lent now.
fn bank<'a, const N: usize>(engine: &Engine<N>, lent: &'a [u8]) -> Ruled<SoundBank<'a>> {
    let held = engine.bank().ok_or(NO_BANK)?;
    if held.length() == lent.len() {
        Ok(held.lent(lent))
    } else {
        Err(BANK_MISMATCH)
    }
}

pub fn search<const N: usize>(engine: &Engine<N>, lent: &[u8], id: u16) -> Ruled<EffectEntry> {
    bank(engine, lent)?.find_by_id(id).map_err(number)
}

/// The original takes a whole entry and reads only where its payload lies.
pub fn payload<'a, const N: usize>(
    engine: &Engine<N>,
    lent: &'a [u8],
    offset: u32,
    length: u16,
) -> Ruled<&'a [u8]> {
    let entry = EffectEntry {
        id: 0,
        kind: EffectKind::Tone,
        flags: 0,
        default_gain_q8: 0,
        param0: 0,
        param1: 0,
        offset,
        len: length as u32,
    };
    bank(engine, lent)?.payload(&entry).map_err(number)
}

/// What the port adds to a start, where no refusal of the original's comes before it: 7, or 10.
pub fn added<const N: usize>(engine: &Engine<N>, lent: &[u8], id: u16) -> Option<i64> {
    let bank = match bank(engine, lent) {
        Ok(bank) => bank,
        Err(NO_BANK) => return None,
        Err(number) => return Some(number),
    };
    let entry = bank.find_by_id(id).ok()?;
    bank.payload(&entry).ok()?;
    match entry.kind {
        EffectKind::Tone | EffectKind::Fm => None,
        _ => Some(NOT_CARRIED),
    }
}

pub fn play<const N: usize>(
    engine: &mut Engine<N>,
    lent: &[u8],
    id: u16,
    envelope: AdsrSpec,
    priority: u8,
) -> Ruled<usize> {
    passes(engine, lent, id, priority)?;
    engine
        .lent(lent, |engine| {
            engine.play_with_priority(id, envelope, priority)
        })
        .map_err(number)
}

/// The call without a priority, which the original plays at 128.
pub fn plain_play<const N: usize>(
    engine: &mut Engine<N>,
    lent: &[u8],
    id: u16,
    envelope: AdsrSpec,
) -> Ruled<usize> {
    passes(engine, lent, id, 128)?;
    engine
        .lent(lent, |engine| engine.play(id, envelope))
        .map_err(number)
}

/// Whether what the port adds lets a play request through; where no voice is found the original says so first.
fn passes<const N: usize>(engine: &mut Engine<N>, lent: &[u8], id: u16, priority: u8) -> Ruled<()> {
    let busy = engine.allocate_voice(priority).is_none();
    match added(engine, lent, id) {
        Some(number) if !busy => Err(number),
        _ => Ok(()),
    }
}

pub fn fade<const N: usize>(
    engine: &mut Engine<N>,
    lent: &[u8],
    id: u16,
    ms: u16,
    envelope: AdsrSpec,
) -> Ruled<()> {
    let busy = N < 2;
    if !busy && let Some(number) = added(engine, lent, id) {
        if number == NOT_CARRIED {
            // Given at the entry start, before which voice 0 is released. Where the payload is refused there the original does it.
            engine.voice_mut(0).expect("two voices").release();
        }
        return Err(number);
    }
    engine
        .lent(lent, |engine| engine.crossfade_to(id, ms, envelope))
        .map_err(number)
}
