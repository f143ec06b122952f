//! Reads a script on standard input and prints the Rust original's answers: the records of the replay format, our own 50 to
//! 6A, and those of document 02 (docs/REPLAY.md): 70, 73, 7A, 82 and 86 by the original with its replacements, 74 to 78 by a line of requests around it, 79 by the
//! original, and 80, 81 and 83 to 85, which the original has not. A bad line prints FFFF and ends the run.

#[path = "replay/answers.rs"]
mod answers;
#[path = "replay/calls.rs"]
mod calls;
#[path = "replay/counts.rs"]
mod counts;
#[path = "replay/fields.rs"]
mod fields;
#[path = "replay/lengths.rs"]
mod lengths;
#[path = "replay/numbers.rs"]
mod numbers;
#[path = "replay/signals.rs"]
mod signals;
#[path = "replay/sounds.rs"]
mod sounds;
#[path = "replay/steps.rs"]
mod steps;
#[path = "replay/writing.rs"]
mod writing;

/// The records of an engine, answered by the original as it is.
#[path = "replay"]
mod document_01 {
    use crate::numbers::TRUNCATED;
    use oracle as original;
    use original::error::AudioError;

    pub mod choices;
    pub mod engine;
    mod frames;
    mod rules;

    /// Its boxes have no records of their own.
    mod added {
        use super::engine::{Record, Sounder};

        pub fn records<const N: usize>() -> &'static [Record<Sounder<N>>] {
            &[]
        }
    }

    /// Nothing waits beside them.
    mod waiting {
        use super::rules::Engine;

        #[derive(Default)]
        pub struct Line;

        impl Line {
            pub fn is_empty(&self) -> bool {
                true
            }

            pub fn enter<const N: usize>(&mut self, _: &mut Engine<N>, _: &[u8]) {}
        }
    }

    /// The numbers of a payload that does not lie in the bank.
    const PAYLOAD_NUMBERS: [(AudioError, i64); 1] = [(AudioError::TruncatedBank, TRUNCATED)];
}

/// The same files over the original with document 02's replacements.
#[path = "replay"]
mod document_02 {
    use crate::numbers::{OFFSET_BEYOND, RUNS_OVER};
    use original::error::AudioError;
    use present as original;

    mod added;
    mod choices;
    pub mod engine;
    mod frames;
    mod rules;
    mod waiting;

    const PAYLOAD_NUMBERS: [(AudioError, i64); 2] = [
        (AudioError::OffsetBeyondBank, OFFSET_BEYOND),
        (AudioError::PayloadRunsOver, RUNS_OVER),
    ];
}

use answers::Answers;
use calls::{Call, MOST_LENT, Mixer};
use fields::{Answered, Bad, Fields, LONGEST, decode};
use numbers::Ruled;
use std::io::{self, BufRead, BufReader, Read, Write};

/// Answers are handed on in pieces of about this size.
const PIECE: usize = 1 << 16;

const OPEN_LENGTH: usize = 10;
const LEND: u8 = 0x12;

type Opened = Result<Ruled<Box<dyn Mixer>>, Bad>;

/// The records that open an engine: document 01's, and one of the present rules.
const OPENS: [(u8, fn(&mut Fields) -> Opened); 2] = [
    (0x10, document_01::engine::open),
    (0x70, document_02::engine::open),
];

type Answer = fn(&mut Fields, &mut Answers) -> Answered;

/// The records that need no engine: code, least and greatest number of bytes after it, and what answers it.
const ALONE: [(u8, usize, usize, Answer); 29] = [
    (0x40, 2, 2, steps::gain),
    (0x41, 3, 3, steps::lerp),
    (0x42, 4, 4, steps::limiter),
    (0x43, 1, 1, steps::pan_gains),
    (0x44, 8, 8, steps::phase_increment),
    (0x45, 1, 1, steps::sine),
    (0x46, 3, 3, steps::duty),
    (0x47, 6, 6, steps::fade_step),
    (0x48, 15, 15, steps::envelope_levels),
    (0x50, 4, 4, steps::decibels_to_gain),
    (0x51, 1, 1, steps::gain_to_decibels),
    (0x52, 4, 4, steps::phase),
    (0x53, 3, 3, steps::crossfade),
    (0x54, 4, 4, steps::clamp),
    (0x55, 1, 1, steps::kind),
    (0x56, 1, 1, steps::conversions),
    (0x57, 7, 4_096, steps::duty_mapper),
    (0x58, 15, 15, steps::envelope_state),
    (0x59, 1, 1, steps::conversion_to_i32),
    (0x60, 17, 17, sounds::source_alone),
    (0x61, 28, 28, sounds::voice_alone),
    (0x6A, 11, 11, sounds::oscillator_from_bits),
    (0x80, 10, 10, signals::pattern),
    (0x81, 4, 4_096, signals::reader),
    (0x82, 2, 2, steps::present_gain),
    (0x83, 13, 4_096, writing::write),
    (0x84, 6, 6, lengths::length),
    (0x85, 10, 10, lengths::carrying),
    (0x86, 4, 4, counts::counts),
];

fn main() -> io::Result<()> {
    let mut input = BufReader::with_capacity(PIECE, io::stdin().lock());
    let mut output = io::stdout().lock();
    let mut answers = Answers::default();
    let mut run = Run::default();
    let mut line = Vec::new();
    let mut bytes = Vec::new();
    while read_line(&mut input, &mut line)? {
        let answered = decode(&line, &mut bytes).and_then(|()| run.answer(&bytes, &mut answers));
        if answered.is_err() {
            answers.hex(0xFFFF, 4);
            answers.end_line();
            break;
        }
        if answers.0.len() >= PIECE {
            output.write_all(&answers.0)?;
            answers.0.clear();
        }
    }
    output.write_all(&answers.0)?;
    output.flush()
}

/// Takes the next line without its newline, or says that there is none. Of a line that is too long it takes one byte more
/// than a good one has, which shows that it is bad and keeps no more of it.
fn read_line(input: &mut impl BufRead, line: &mut Vec<u8>) -> io::Result<bool> {
    line.clear();
    let taken = input.take(LONGEST as u64 + 1).read_until(b'\n', line)?;
    if line.last() == Some(&b'\n') {
        line.pop();
    }
    Ok(taken > 0)
}

/// What stays from record to record: the engine opened last, of either document, and what is lent.
#[derive(Default)]
struct Run {
    engine: Option<Box<dyn Mixer>>,
    lent: Vec<u8>,
}

impl Run {
    fn answer(&mut self, record: &[u8], answers: &mut Answers) -> Answered {
        let (&code, fields) = record.split_first().ok_or(Bad)?;
        if let Some((_, open)) = OPENS.iter().find(|record| record.0 == code) {
            return self.open(*open, fields, answers);
        }
        if code == LEND {
            return self.lend(fields);
        }
        if let Some(record) = ALONE.iter().find(|record| record.0 == code) {
            return alone(record, fields, answers);
        }
        let mut call = Call {
            fields: Fields(fields),
            lent: &self.lent,
            answers,
        };
        self.engine.as_mut().ok_or(Bad)?.answer(code, &mut call)
    }

    /// An engine that is refused leaves the old one.
    fn open(
        &mut self,
        open: fn(&mut Fields) -> Opened,
        fields: &[u8],
        answers: &mut Answers,
    ) -> Answered {
        if fields.len() != OPEN_LENGTH {
            return Err(Bad);
        }
        let opened = open(&mut Fields(fields))?;
        answers.number(opened.map(|engine| self.engine = Some(engine)))
    }

    fn lend(&mut self, bytes: &[u8]) -> Answered {
        if bytes.len() > MOST_LENT {
            return Err(Bad);
        }
        self.lent = bytes.to_vec();
        Ok(())
    }
}

fn alone(record: &(u8, usize, usize, Answer), fields: &[u8], answers: &mut Answers) -> Answered {
    let (_, least, greatest, answer) = record;
    if !(*least..=*greatest).contains(&fields.len()) {
        return Err(Bad);
    }
    answer(&mut Fields(fields), answers)
}
