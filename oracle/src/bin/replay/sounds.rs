//! A source or a voice alone, with no engine: our own records 60, 61 and 6A.

use crate::answers::Answers;
use crate::document_01::choices::Choices;
use crate::fields::{Answered, Bad, Fields};
use crate::numbers::{BAD_RATE, HIGHEST_RATE};
use oracle::source::VoiceSource;
use oracle::state_of;
use oracle::synth::polyblep::voice_at;
use oracle::synth::{PolyBlepWaveform, Waveform};
use oracle::voice::{Voice, peek_source};

/// The most requests or frames that one record prints.
const MOST_PRINTED: u16 = 16_000;

/// What a source is started with: its Hz, then ms and waveform, or for FM the ratio.
enum Start {
    Tone(u32, u16, Waveform),
    PolyBlep(u32, u16, PolyBlepWaveform),
    Fm(u32, u16),
}

impl Start {
    fn read(fields: &mut Fields) -> Result<Self, Bad> {
        let (kind, hz, parameter) = (fields.u8(), fields.u32(), fields.u16());
        match kind {
            1 => Ok(Self::Tone(hz, parameter, fields.waveform()?)),
            2 => Ok(Self::PolyBlep(hz, parameter, fields.polyblep_waveform()?)),
            3 if fields.u8() == 0 => Ok(Self::Fm(hz, parameter)),
            _ => Err(Bad),
        }
    }

    fn put_in(&self, source: &mut VoiceSource, rate: u32) {
        match *self {
            Self::Tone(hz, ms, waveform) => source.start_tone(hz, ms, waveform, rate),
            Self::PolyBlep(hz, ms, waveform) => source.start_polyblep(hz, ms, waveform, rate),
            Self::Fm(hz, ratio) => source.start_fm(hz, ratio, rate),
        }
    }
}

/// How many requests or frames are not printed, and how many are.
fn read_counts(skipped: u32, printed: u16) -> Result<(u32, u16), Bad> {
    if printed > MOST_PRINTED {
        Err(Bad)
    } else {
        Ok((skipped, printed))
    }
}

pub fn source_alone(fields: &mut Fields, answers: &mut Answers) -> Answered {
    let start = Start::read(fields)?;
    let rate = fields.u32();
    let (skipped, printed) = read_counts(fields.u24(), fields.u16())?;
    if rate > HIGHEST_RATE {
        return answers.line(BAD_RATE, 2);
    }
    answers.line(0, 2)?;
    let mut source = VoiceSource::idle();
    start.put_in(&mut source, rate);
    for _ in 0..skipped {
        source.next_raw_sample();
    }
    for _ in 0..printed {
        answers.given(source.next_raw_sample());
    }
    let mut state = Vec::new();
    peek_source(&source, &mut state);
    answers.fields(&state);
    answers.line(source.carrier_hz(rate).unwrap_or(0) as i64, 8)
}

/// A frame of a voice, on one side or on two.
fn frame(answers: &mut Answers, voice: &mut Voice, stereo: bool) {
    if !stereo {
        return answers.given(voice.next_sample());
    }
    let pair = voice.next_stereo_sample();
    answers.given(pair.map(|(left, _)| left));
    answers.hex(pair.map_or(0, |(_, right)| right as u8 as i64), 2);
}

pub fn voice_alone(fields: &mut Fields, answers: &mut Answers) -> Answered {
    let start = Start::read(fields)?;
    let (rate, spec) = (fields.u32(), fields.envelope());
    let (gain, pan, stereo) = (fields.u8(), fields.u8(), fields.flag()?);
    let (skipped, release, printed) = (fields.u24(), fields.flag()?, fields.u16());
    let (skipped, printed) = read_counts(skipped, printed)?;
    if rate > HIGHEST_RATE {
        return answers.line(BAD_RATE, 2);
    }
    answers.line(0, 2)?;
    let mut voice = Voice::silent(rate);
    start.put_in(&mut voice.source, rate);
    voice.set_gain_q8(gain);
    voice.set_pan_q8(pan);
    voice.trigger_adsr(spec);
    for _ in 0..skipped {
        voice.tick_envelope();
        voice.next_sample();
    }
    if release {
        voice.release();
    }
    for _ in 0..printed {
        voice.tick_envelope();
        frame(answers, &mut voice, stereo);
    }
    answers.fields(&state_of(&voice));
    answers.line(voice.is_audible() as i64, 2)
}

/// What a phase or a step outside its range is answered with; it is no number of document 01's.
const OUT_OF_RANGE: i64 = 1;

pub fn oscillator_from_bits(fields: &mut Fields, answers: &mut Answers) -> Answered {
    let (phase, step) = (f32::from_bits(fields.u32()), f32::from_bits(fields.u32()));
    let waveform = fields.polyblep_waveform()?;
    let (_, printed) = read_counts(0, fields.u16())?;
    if !((0.0..1.0).contains(&phase) && (0.0..=0.499).contains(&step)) {
        return answers.line(OUT_OF_RANGE, 2);
    }
    answers.line(0, 2)?;
    let mut source = VoiceSource::PolyBlep(voice_at(phase, step, waveform));
    for _ in 0..printed {
        answers.given(source.next_raw_sample());
    }
    let mut state = Vec::new();
    peek_source(&source, &mut state);
    answers.fields(&state);
    answers.end_line();
    Ok(())
}
