//! Records 20 to 2C and 66 to 68: frames and buffers of them.

use super::engine::Sounder;
use super::rules::Engine;
use crate::calls::Call;
use crate::fields::{Answered, Bad};

const MOST_CELLS: u16 = 2_048;

/// A buffer's cell.
trait Cell: Copy + Into<i64> {
    /// What it holds before the call: every byte is A5.
    const UNWRITTEN: Self;
    const DIGITS: u32;
}

macro_rules! cells {
    ($($kind:ty)*) => {$(
        impl Cell for $kind {
            const UNWRITTEN: Self = Self::from_ne_bytes([0xA5; size_of::<Self>()]);
            const DIGITS: u32 = Self::BITS / 4;
        }
    )*};
}

cells!(i8 i16 i32 u8 u16);

/// A buffer of the length asked for, handed to `fill` and printed whole after the filled length. While a request waits it is handed over a frame's
/// cells at a time; the rest is the original's own buffer.
fn filled<T: Cell, const N: usize>(
    sounder: &mut Sounder<N>,
    call: &mut Call,
    frame: usize,
    fill: fn(&mut Engine<N>, &mut [T]) -> usize,
) -> Answered {
    let cells = call.fields.u16();
    if cells > MOST_CELLS {
        return Err(Bad);
    }
    let mut buffer = vec![T::UNWRITTEN; cells as usize];
    let mut length = 0;
    while !sounder.line.is_empty() && length + frame <= buffer.len() {
        let cells = &mut buffer[length..length + frame];
        length += fill(sounder.frame(call.lent), cells);
    }
    length += fill(&mut sounder.engine, &mut buffer[length..]);
    call.answers.hex(length as i64, 4);
    for cell in buffer {
        call.answers.hex(cell.into(), T::DIGITS);
    }
    call.answers.end_line();
    Ok(())
}

/// Each buffer's cells for a frame, and the original's call.
macro_rules! fills {
    ($($name:ident: $frame:literal, $fill:ident;)*) => {$(
        pub fn $name<const N: usize>(sounder: &mut Sounder<N>, call: &mut Call) -> Answered {
            filled(sounder, call, $frame, Engine::<N>::$fill)
        }
    )*};
}

fills! {
    duty: 1, fill_duty_buffer;
    pcm_i8: 1, fill_pcm_i8_buffer;
    pcm_i16: 1, fill_pcm_i16_buffer;
    pcm_i32: 1, fill_pcm_i32_buffer;
    dac_u8: 1, fill_dac_u8_buffer;
    dac_u12: 1, fill_dac_u12_buffer;
    dac_u16: 1, fill_dac_u16_buffer;
    stereo_i16: 2, fill_stereo_i16_buffer;
    stereo_i32: 2, fill_stereo_i32_buffer;
    panned_i16: 2, fill_stereo_panned_i16_buffer;
    panned_i8: 2, fill_stereo_panned_i8_buffer;
}

pub fn one_stereo<const N: usize>(sounder: &mut Sounder<N>, call: &mut Call) -> Answered {
    let (left, right) = sounder.frame(call.lent).tick_stereo_pcm();
    call.answers.hex(left as i64, 2);
    call.answers.line(right as i64, 2)
}

pub fn one_duty<const N: usize>(sounder: &mut Sounder<N>, call: &mut Call) -> Answered {
    call.answers.line(sounder.frame(call.lent).tick() as i64, 4)
}

pub fn one_pcm<const N: usize>(sounder: &mut Sounder<N>, call: &mut Call) -> Answered {
    call.answers
        .line(sounder.frame(call.lent).tick_pcm() as i64, 2)
}

pub fn one_pwm<const N: usize>(sounder: &mut Sounder<N>, call: &mut Call) -> Answered {
    call.answers
        .line(sounder.frame(call.lent).tick_pwm() as i64, 4)
}

pub fn one_wide_stereo<const N: usize>(sounder: &mut Sounder<N>, call: &mut Call) -> Answered {
    let (left, right) = sounder.frame(call.lent).tick_stereo_i16();
    call.answers.hex(left as i64, 4);
    call.answers.line(right as i64, 4)
}
