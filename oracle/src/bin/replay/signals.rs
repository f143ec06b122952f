//! The evacuation pattern and its reader: records 80 and 81. The original has neither; this is document 02's T-01, read plainly and apart from
//! the port.

use crate::answers::Answers;
use crate::fields::{Answered, Bad, Fields};
use crate::numbers::{BAD_RATE, HIGHEST_RATE, LEAST_SIGNAL_RATE, LOW_RATE, Ruled};
use std::iter::repeat_n;

/// On, off, on, off, on and the long off, in milliseconds.
const PHASES: [u64; 6] = [500, 500, 500, 500, 500, 1_500];

/// The most samples that one record prints.
const MOST_PRINTED: u16 = 2_048;

fn opening(rate: u32) -> Ruled<u64> {
    if rate < LEAST_SIGNAL_RATE {
        Err(LOW_RATE)
    } else if rate > HIGHEST_RATE {
        Err(BAD_RATE)
    } else {
        Ok(rate as u64)
    }
}

fn byte_of(place: usize) -> u8 {
    if place.is_multiple_of(2) { 1 } else { 0 }
}

/// A whole cycle, laid out.
fn cycle(rate: u64) -> Vec<u8> {
    let phase = |(place, ms)| repeat_n(byte_of(place), (ms * rate / 1_000) as usize);
    PHASES.into_iter().enumerate().flat_map(phase).collect()
}

pub fn pattern(fields: &mut Fields, answers: &mut Answers) -> Answered {
    let (rate, first, printed) = (opening(fields.u32()), fields.u32(), fields.u16());
    if printed > MOST_PRINTED {
        return Err(Bad);
    }
    answers.number(rate.map(|_| ()))?;
    let Ok(rate) = rate else { return Ok(()) };
    let cycle = cycle(rate);
    let from = first as usize % cycle.len();
    for sample in cycle.iter().cycle().skip(from).take(printed as usize) {
        answers.hex(*sample as i64, 2);
    }
    answers.end_line();
    Ok(())
}

/// Whether the run at a place, counted from 0, is that phase: its byte, and a length within a tenth of the nominal one.
fn is_phase(rate: u64, place: usize, run: &[u8]) -> bool {
    let nominal = PHASES[place % PHASES.len()] * rate;
    run[0] == byte_of(place) && 10 * nominal.abs_diff(1_000 * run.len() as u64) <= nominal
}

fn whole_cycles(rate: u64, recording: &[u8]) -> bool {
    let runs: Vec<&[u8]> = recording.chunk_by(|a, b| a == b).collect();
    let mut places = runs.iter().enumerate();
    !runs.is_empty()
        && runs.len().is_multiple_of(PHASES.len())
        && places.all(|(place, run)| is_phase(rate, place, run))
}

pub fn reader(fields: &mut Fields, answers: &mut Answers) -> Answered {
    let rate = opening(fields.u32());
    let read = rate.map(|rate| whole_cycles(rate, fields.0) as i64);
    answers.numbered(read, 2)
}
