//! Lengths with what is left over: records 84 and 85. The original has none; this is document 02's T-10, read plainly and apart from the port.

use crate::answers::Answers;
use crate::fields::{Answered, Fields};
use crate::numbers::{BAD_RATE, HIGHEST_RATE};

fn answer(ms: u16, rate: u32, carried: u32, answers: &mut Answers) -> Answered {
    let thousandths = ms as i64 * rate as i64 + carried as i64;
    let length = match rate > HIGHEST_RATE {
        true => Err(BAD_RATE),
        false => Ok(thousandths / 1_000 << 16 | thousandths % 1_000),
    };
    answers.numbered(length, 12)
}

pub fn length(fields: &mut Fields, answers: &mut Answers) -> Answered {
    let (ms, rate) = (fields.u16(), fields.u32());
    answer(ms, rate, 0, answers)
}

pub fn carrying(fields: &mut Fields, answers: &mut Answers) -> Answered {
    let (ms, rate) = (fields.u16(), fields.u32());
    answer(ms, rate, fields.u32(), answers)
}
