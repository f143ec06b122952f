//! Records of an engine: all that needs one open, frames apart.

use super::added;
use super::choices::Choices;
use super::frames;
use super::original::bank::SoundBank;
use super::original::config::AudioConfig;
use super::original::engine::AudioEngine;
use super::original::state_of;
use super::rules::{self, Engine};
use super::waiting::Line;
use crate::calls::{Call, MOST_LENT, Mixer};
use crate::fields::{Answered, Bad, Fields};
use crate::numbers::{self, Ruled, VOICE_BUSY};

/// What the engine's bank lies over between two calls. It has only its length from there: each call that reads the bank
/// reads the bytes lent to it.
static HELD: [u8; MOST_LENT] = [0; MOST_LENT];

/// A box between two records: the original's engine, and the requests that wait beside it.
pub struct Sounder<const N: usize> {
    pub engine: Engine<N>,
    pub line: Line,
}

impl<const N: usize> Sounder<N> {
    /// The engine at the start of a frame, after the requests that go in there.
    pub fn frame(&mut self, lent: &[u8]) -> &mut Engine<N> {
        self.line.enter(&mut self.engine, lent);
        &mut self.engine
    }
}

/// Code, number of bytes after it, and what answers it.
pub type Record<T> = (u8, usize, fn(&mut T, &mut Call) -> Answered);

/// Those of both documents.
struct Records<const N: usize>;

impl<const N: usize> Records<N> {
    /// Those that make no frames: whatever waits, they leave it.
    const CALLS: [Record<Engine<N>>; 19] = [
        (0x11, 6, set_bank),
        (0x13, 10, play),
        (0x14, 11, fade),
        (0x15, 7, tone),
        (0x16, 7, polyblep),
        (0x17, 2, pan),
        (0x18, 1, master_gain),
        (0x19, 0, stop_all),
        (0x1A, 2, entry_search),
        (0x1B, 6, payload_lookup),
        (0x1C, 1, allocate),
        (0x1D, 0, audible),
        (0x30, 0, dump),
        (0x62, 9, plain_play),
        (0x63, 1, voice_pan),
        (0x64, 0, policy),
        (0x65, 0, config),
        (0x69, 1, voice),
        (0x79, 0, fade_left),
    ];

    const FRAMES: [Record<Sounder<N>>; 16] = [
        (0x20, 2, frames::duty),
        (0x21, 2, frames::pcm_i8),
        (0x22, 2, frames::pcm_i16),
        (0x23, 2, frames::pcm_i32),
        (0x24, 2, frames::dac_u8),
        (0x25, 2, frames::dac_u12),
        (0x26, 2, frames::dac_u16),
        (0x27, 2, frames::stereo_i16),
        (0x28, 2, frames::stereo_i32),
        (0x29, 2, frames::panned_i16),
        (0x2A, 2, frames::panned_i8),
        (0x2B, 0, frames::one_stereo),
        (0x2C, 0, frames::one_duty),
        (0x66, 0, frames::one_pcm),
        (0x67, 0, frames::one_pwm),
        (0x68, 0, frames::one_wide_stereo),
    ];
}

impl<const N: usize> Mixer for Sounder<N> {
    fn answer(&mut self, code: u8, call: &mut Call) -> Answered {
        answered(&Records::<N>::CALLS, &mut self.engine, code, call)
            .or_else(|| answered(&Records::<N>::FRAMES, self, code, call))
            .or_else(|| answered(added::records(), self, code, call))
            .unwrap_or(Err(Bad))
    }
}

/// What the record of that code answers, if it is one of these.
fn answered<T>(
    records: &[Record<T>],
    asked: &mut T,
    code: u8,
    call: &mut Call,
) -> Option<Answered> {
    let (_, length, answer) = records.iter().find(|record| record.0 == code)?;
    if call.fields.0.len() != *length {
        return Some(Err(Bad));
    }
    Some(answer(asked, call))
}

/// The box that an open record asks for, with none waiting, or the refusal.
pub fn open(fields: &mut Fields) -> Result<Ruled<Box<dyn Mixer>>, Bad> {
    let (voices, rate, period) = (fields.u8(), fields.u32(), fields.u16());
    let config = AudioConfig::new(rate, period, fields.duty_mode()?).master_gain_q8(fields.u8());
    let policy = fields.policy()?;
    if let Err(number) = numbers::opening(voices, rate, period) {
        return Ok(Err(number));
    }
    macro_rules! of {
        ($($count:literal)*) => {
            match voices {
                $($count => {
                    let mut engine: Engine<$count> = AudioEngine::with_voice_count(config);
                    engine.set_stealing_policy(policy);
                    Box::new(Sounder { engine, line: Line::default() })
                })*
                _ => unreachable!("more voices than are opened"),
            }
        };
    }
    Ok(Ok(of!(0 1 2 3 4 5 6 7 8 9 10 11 12 13 14 15 16)))
}

fn set_bank<const N: usize>(engine: &mut Engine<N>, call: &mut Call) -> Answered {
    let (rate, count) = (call.fields.u32(), call.fields.u16());
    let ruled = numbers::setting(rate, count, call.lent.len());
    if ruled.is_ok() {
        engine.set_bank(SoundBank::over(&HELD[..call.lent.len()], rate, count));
    }
    call.answers.number(ruled)
}

fn play<const N: usize>(engine: &mut Engine<N>, call: &mut Call) -> Answered {
    let fields = &mut call.fields;
    let (id, envelope, priority) = (fields.u16(), fields.envelope(), fields.u8());
    let voice = rules::play(engine, call.lent, id, envelope, priority);
    call.answers.voice(voice)
}

fn plain_play<const N: usize>(engine: &mut Engine<N>, call: &mut Call) -> Answered {
    let (id, envelope) = (call.fields.u16(), call.fields.envelope());
    let voice = rules::plain_play(engine, call.lent, id, envelope);
    call.answers.voice(voice)
}

fn fade<const N: usize>(engine: &mut Engine<N>, call: &mut Call) -> Answered {
    let fields = &mut call.fields;
    let (id, ms, envelope) = (fields.u16(), fields.u16(), fields.envelope());
    let ruled = rules::fade(engine, call.lent, id, ms, envelope);
    call.answers.number(ruled)
}

fn tone<const N: usize>(engine: &mut Engine<N>, call: &mut Call) -> Answered {
    let fields = &mut call.fields;
    let (hz, ms, waveform) = (fields.u32(), fields.u16(), fields.waveform()?);
    engine.play_tone(hz, ms, waveform);
    Ok(())
}

fn polyblep<const N: usize>(engine: &mut Engine<N>, call: &mut Call) -> Answered {
    let fields = &mut call.fields;
    let (hz, ms, waveform) = (fields.u32(), fields.u16(), fields.polyblep_waveform()?);
    engine.play_polyblep(hz, ms, waveform);
    Ok(())
}

fn pan<const N: usize>(engine: &mut Engine<N>, call: &mut Call) -> Answered {
    let (voice, pan) = (call.fields.u8(), call.fields.u8());
    engine.set_voice_pan(voice as usize, pan);
    Ok(())
}

fn master_gain<const N: usize>(engine: &mut Engine<N>, call: &mut Call) -> Answered {
    engine.set_master_gain_q8(call.fields.u8());
    Ok(())
}

fn stop_all<const N: usize>(engine: &mut Engine<N>, _: &mut Call) -> Answered {
    engine.stop_all();
    Ok(())
}

fn entry_search<const N: usize>(engine: &mut Engine<N>, call: &mut Call) -> Answered {
    let entry = match rules::search(engine, call.lent, call.fields.u16()) {
        Ok(entry) => entry,
        Err(number) => return call.answers.line(number, 2),
    };
    call.answers.hex(0, 2);
    for byte in [entry.kind as u8, entry.flags, entry.default_gain_q8] {
        call.answers.hex(byte as i64, 2);
    }
    for parameter in [entry.param0, entry.param1] {
        call.answers.hex(parameter as i64, 4);
    }
    call.answers.hex(entry.offset as i64, 8);
    call.answers.line(entry.len as i64, 8)
}

fn payload_lookup<const N: usize>(engine: &mut Engine<N>, call: &mut Call) -> Answered {
    let (offset, length) = (call.fields.u32(), call.fields.u16());
    let part = rules::payload(engine, call.lent, offset, length);
    call.answers.hex(part.err().unwrap_or(0), 2);
    for byte in part.unwrap_or(&[]) {
        call.answers.hex(*byte as i64, 2);
    }
    call.answers.end_line();
    Ok(())
}

fn allocate<const N: usize>(engine: &mut Engine<N>, call: &mut Call) -> Answered {
    let voice = engine.allocate_voice(call.fields.u8());
    call.answers.voice(voice.ok_or(VOICE_BUSY))
}

fn audible<const N: usize>(engine: &mut Engine<N>, call: &mut Call) -> Answered {
    call.answers.hex(engine.is_playing() as i64, 2);
    call.answers.line(engine.active_voice_count() as i64, 2)
}

fn voice_pan<const N: usize>(engine: &mut Engine<N>, call: &mut Call) -> Answered {
    match engine.voice_pan(call.fields.u8() as usize) {
        Some(pan) => call.answers.line(0x100 | pan as i64, 4),
        None => call.answers.line(0, 2),
    }
}

fn policy<const N: usize>(engine: &mut Engine<N>, call: &mut Call) -> Answered {
    call.answers.line(engine.stealing_policy() as i64, 2)
}

fn config<const N: usize>(engine: &mut Engine<N>, call: &mut Call) -> Answered {
    let config = engine.config();
    call.answers.hex(config.sample_rate_hz as i64, 8);
    call.answers.hex(config.pwm_period as i64, 4);
    call.answers.hex(config.duty_mode as i64, 2);
    call.answers.line(config.master_gain_q8 as i64, 2)
}

/// As in a dump, or an empty line.
fn voice<const N: usize>(engine: &mut Engine<N>, call: &mut Call) -> Answered {
    if let Some(voice) = engine.voice(call.fields.u8() as usize) {
        call.answers.fields(&state_of(voice));
    }
    call.answers.end_line();
    Ok(())
}

fn fade_left<const N: usize>(engine: &mut Engine<N>, call: &mut Call) -> Answered {
    call.answers.line(engine.fade_frames_left(), 2)
}

fn dump<const N: usize>(engine: &mut Engine<N>, call: &mut Call) -> Answered {
    call.answers.fields(&state_of(engine));
    call.answers.end_line();
    for voice in (0..N).filter_map(|place| engine.voice(place)) {
        call.answers.fields(&state_of(voice));
        call.answers.end_line();
    }
    Ok(())
}
