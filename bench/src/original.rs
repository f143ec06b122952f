//! The Rust original, as it is or with document 02's replacements.

use super::source::bank::SoundBank;
use super::source::config::AudioConfig;
use super::source::engine::AudioEngine;
use super::source::envelope::AdsrSpec;
use super::source::error::AudioError;
use super::source::output::DutyMode;
use super::source::synth::PolyBlepWaveform;

use crate::job::{Given, Script, Side};
use crate::writer;

pub struct Original;

/// The refusals that a search can meet, by their numbers.
fn number(error: AudioError) -> u8 {
    match error {
        AudioError::TruncatedBank => 4,
        AudioError::EffectNotFound => 8,
        AudioError::InvalidEffectKind => 9,
        _ => unreachable!("no refusal of a search"),
    }
}

fn mode(number: u8) -> DutyMode {
    match number {
        0 => DutyMode::Linear,
        1 => DutyMode::SigmaDelta,
        _ => DutyMode::SigmaDelta2ndOrder,
    }
}

fn ready<const N: usize>(script: &Script) -> AudioEngine<'_, N> {
    let config = AudioConfig::new(script.rate, 1000, mode(script.mode));
    let mut engine = AudioEngine::with_voice_count(config);
    engine.set_bank(SoundBank::over(&script.bank, script.rate, script.count));
    for request in script.requests.chunks_exact(10) {
        let wide = |at: usize| u16::from_be_bytes([request[at], request[at + 1]]);
        let adsr = AdsrSpec {
            attack_ms: wide(2),
            decay_ms: wide(4),
            sustain_q8: request[6],
            release_ms: wide(7),
        };
        // A request that is turned down changes nothing.
        let _ = engine.play_with_priority(wide(0), adsr, request[9]);
    }
    if script.blep_hz > 0 {
        engine.play_polyblep(script.blep_hz, 60_000, PolyBlepWaveform::Sawtooth);
    }
    engine
}

fn panned<const N: usize>(script: &Script) -> AudioEngine<'_, N> {
    let mut engine = ready(script);
    engine.set_voice_pan(0, 40);
    engine.set_voice_pan(1, 200);
    engine
}

/// One body for each number of voices that is measured.
macro_rules! voices {
    ($script:expr, $engine:ident, $call:expr) => {
        match $script.n {
            2 => $call(&mut $engine::<2>($script)),
            16 => $call(&mut $engine::<16>($script)),
            n => unreachable!("{n} voices"),
        }
    };
}

impl Side for Original {
    #[inline(never)]
    fn find(bank: &[u8], rate: u32, count: u16, id: u16, entry: &mut [u32; 8]) -> u8 {
        match SoundBank::over(bank, rate, count).find_by_id(id) {
            Err(error) => number(error),
            Ok(e) => {
                *entry = [
                    e.id as u32,
                    e.kind as u32,
                    e.flags as u32,
                    e.default_gain_q8 as u32,
                    e.param0 as u32,
                    e.param1 as u32,
                    e.offset,
                    e.len,
                ];
                0
            }
        }
    }

    /// The original has no writer of banks: this is one in Rust, with the standard library's sort.
    #[inline(never)]
    fn write(given: &Given, out: &mut [u8]) -> usize {
        writer::write(&given.header, &given.entries, &given.payloads, out).unwrap_or(0)
    }

    #[inline(never)]
    fn play(script: &Script) -> usize {
        voices!(script, ready, |e: &mut AudioEngine<'_, _>| e
            .active_voice_count())
    }

    #[inline(never)]
    fn mono(script: &Script, out: &mut [i16]) -> usize {
        voices!(script, ready, |e: &mut AudioEngine<'_, _>| e
            .fill_pcm_i16_buffer(out))
    }

    /// The original has no line, and none could go in.
    #[inline(never)]
    fn waiting(script: &Script, out: &mut [i16]) -> usize {
        Self::mono(script, out)
    }

    #[inline(never)]
    fn stereo(script: &Script, out: &mut [i16]) -> usize {
        voices!(script, panned, |e: &mut AudioEngine<'_, _>| e
            .fill_stereo_panned_i16_buffer(out))
    }

    #[inline(never)]
    fn duty(script: &Script, out: &mut [u16]) -> usize {
        voices!(script, ready, |e: &mut AudioEngine<'_, _>| e
            .fill_duty_buffer(out))
    }
}
