//! Single steps, with no engine: records 40 to 48, our own 50 to 59, and 82.

use crate::answers::Answers;
use crate::document_01::choices::Choices;
use crate::fields::{Answered, Bad, Fields};
use crate::numbers::{
    BAD_PERIOD, BAD_RATE, BAD_SUM, HIGHEST_RATE, INVALID_KIND, LEAST_PERIOD, SUMS,
};
use oracle::config::crossfade_step_q8;
use oracle::envelope::Adsr;
use oracle::fixed;
use oracle::output::{self, PwmMapper, SigmaDelta};
use oracle::state_of;
use oracle::tier::EffectKind;

pub fn gain(fields: &mut Fields, answers: &mut Answers) -> Answered {
    let (sample, gain) = (fields.i8(), fields.u8());
    answers.line(fixed::apply_gain_q8(sample, gain) as i64, 2)
}

pub fn present_gain(fields: &mut Fields, answers: &mut Answers) -> Answered {
    let (sample, gain) = (fields.i8(), fields.u8());
    answers.line(present::fixed::apply_gain_q8(sample, gain) as i64, 2)
}

pub fn lerp(fields: &mut Fields, answers: &mut Answers) -> Answered {
    let (a, b, fraction) = (fields.i8(), fields.i8(), fields.u8());
    answers.line(fixed::lerp_i8(a, b, fraction) as i64, 2)
}

pub fn limiter(fields: &mut Fields, answers: &mut Answers) -> Answered {
    let sum = fields.i32();
    let limited = if SUMS.contains(&sum) {
        Ok(output::limit_bus(sum) as i64)
    } else {
        Err(BAD_SUM)
    };
    answers.numbered(limited, 2)
}

pub fn pan_gains(fields: &mut Fields, answers: &mut Answers) -> Answered {
    let (left, right) = fixed::pan_to_gains_q8(fields.u8());
    answers.hex(left as i64, 2);
    answers.line(right as i64, 2)
}

pub fn phase_increment(fields: &mut Fields, answers: &mut Answers) -> Answered {
    let (hz, rate) = (fields.u32(), fields.u32());
    answers.line(fixed::hz_to_phase_inc(hz, rate) as i64, 8)
}

pub fn sine(fields: &mut Fields, answers: &mut Answers) -> Answered {
    answers.line(fixed::sin_table(fields.u8()) as i64, 2)
}

pub fn duty(fields: &mut Fields, answers: &mut Answers) -> Answered {
    let (sample, period) = (fields.i8(), fields.u16());
    let duty = if period < LEAST_PERIOD {
        Err(BAD_PERIOD)
    } else {
        Ok(output::pcm_to_duty(sample, period) as i64)
    };
    answers.numbered(duty, 4)
}

pub fn fade_step(fields: &mut Fields, answers: &mut Answers) -> Answered {
    let (ms, rate) = (fields.u16(), fields.u32());
    answers.numbered(Ok(crossfade_step_q8(ms, rate) as i64), 2)
}

pub fn envelope_levels(fields: &mut Fields, answers: &mut Answers) -> Answered {
    if let Some(mut envelope) = open_envelope(fields, answers)? {
        run_envelope(&mut envelope, fields, |level| answers.hex(level as i64, 2));
        answers.end_line();
    }
    Ok(())
}

pub fn envelope_state(fields: &mut Fields, answers: &mut Answers) -> Answered {
    if let Some(mut envelope) = open_envelope(fields, answers)? {
        run_envelope(&mut envelope, fields, |_| ());
        answers.fields(&state_of(&envelope));
        answers.end_line();
    }
    Ok(())
}

/// The number's line, and the envelope, triggered, where it is not refused.
fn open_envelope(fields: &mut Fields, answers: &mut Answers) -> Result<Option<Adsr>, Bad> {
    let (spec, rate) = (fields.envelope(), fields.u32());
    if rate > HIGHEST_RATE {
        return answers.line(BAD_RATE, 2).map(|()| None);
    }
    answers.line(0, 2)?;
    let mut envelope = Adsr::new(spec, rate);
    envelope.trigger();
    Ok(Some(envelope))
}

/// Both groups of ticks, the release between them, and the level after each tick.
fn run_envelope(envelope: &mut Adsr, fields: &mut Fields, mut each: impl FnMut(u8)) {
    let mut ticks = |envelope: &mut Adsr, count: u16| {
        for _ in 0..count {
            envelope.tick();
            each(envelope.level_q8());
        }
    };
    ticks(envelope, fields.u16());
    envelope.release();
    ticks(envelope, fields.u16());
}

pub fn decibels_to_gain(fields: &mut Fields, answers: &mut Answers) -> Answered {
    let decibels = f32::from_bits(fields.u32());
    answers.line(fixed::db_to_q8(decibels) as i64, 2)
}

pub fn gain_to_decibels(fields: &mut Fields, answers: &mut Answers) -> Answered {
    answers.line(fixed::q8_to_db(fields.u8()).to_bits() as i64, 8)
}

/// The fraction has no function of its own in the Rust; this is how the FM voice takes it.
pub fn phase(fields: &mut Fields, answers: &mut Answers) -> Answered {
    let phase = fields.u32();
    answers.hex(fixed::phase_index(phase) as i64, 2);
    answers.line(((phase >> 16) as u8) as i64, 2)
}

pub fn crossfade(fields: &mut Fields, answers: &mut Answers) -> Answered {
    let (a, b, t) = (fields.i8(), fields.i8(), fields.u8());
    answers.line(fixed::mix_crossfade(a, b, t) as i64, 2)
}

pub fn clamp(fields: &mut Fields, answers: &mut Answers) -> Answered {
    answers.line(fixed::clamp_sample(fields.i32()) as i64, 2)
}

pub fn kind(fields: &mut Fields, answers: &mut Answers) -> Answered {
    let kind = EffectKind::from_u8(fields.u8()).map(|kind| kind as i64);
    answers.numbered(kind.ok_or(INVALID_KIND), 2)
}

pub fn conversions(fields: &mut Fields, answers: &mut Answers) -> Answered {
    let sample = fields.i8();
    answers.hex(output::pcm_to_i16(sample) as i64, 4);
    answers.hex(output::pcm_to_dac_u8(sample) as i64, 2);
    answers.hex(output::pcm_to_dac_u12(sample) as i64, 4);
    answers.line(output::pcm_to_dac_u16(sample) as i64, 4)
}

pub fn conversion_to_i32(fields: &mut Fields, answers: &mut Answers) -> Answered {
    answers.line(output::pcm_to_i32(fields.i8()) as i64, 8)
}

pub fn duty_mapper(fields: &mut Fields, answers: &mut Answers) -> Answered {
    let mut mapper = PwmMapper::new(fields.duty_mode()?);
    let period = fields.u16();
    mapper.sigma_delta = SigmaDelta::at(fields.i32());
    if period < LEAST_PERIOD {
        return answers.line(BAD_PERIOD, 2);
    }
    answers.line(0, 2)?;
    for sample in fields.0 {
        answers.hex(mapper.map(*sample as i8, period) as i64, 4);
    }
    // The mode stands first and is not printed.
    for field in &state_of(&mapper)[1..] {
        answers.hex(*field, 8);
    }
    answers.end_line();
    Ok(())
}
