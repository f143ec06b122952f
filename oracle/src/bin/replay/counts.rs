//! How often a signal would be turned away: record 86, document 02's T-13. The original has no such count: every list is tried, each on a silent box of
//! its own, by the original with document 02's replacements.

use crate::answers::Answers;
use crate::fields::{Answered, Fields};
use crate::numbers::{BAD_COUNT, MOST_VOICES, Ruled};
use present::bank::SoundBank;
use present::config::AudioConfig;
use present::engine::AudioEngine;
use present::envelope::AdsrSpec;
use present::error::AudioError;
use present::output::DutyMode;
use std::collections::BTreeMap;
use std::sync::Mutex;

const MOST_PRIORITIES: u8 = 4;
const MOST_REQUESTS: u8 = 8;

const RATE: u32 = 8_000;

/// One entry: id 0, FM without end, gain 200, 440 Hz, ratio 150, no payload.
static BANK: [u8; 26] = [
    0, 0, 0, 0, 0, 0, 0, 0, 0, 0, 0, 0, 2, 0, 200, 0, 0xB8, 1, 150, 0, 0, 0, 0, 0, 0, 0,
];

/// The answers so far, by the record's fields: the last of them takes 65,536 lists.
static KNOWN: Mutex<BTreeMap<[u8; 4], i64>> = Mutex::new(BTreeMap::new());

fn play<const N: usize>(engine: &mut AudioEngine<N>, priority: u8) -> Result<usize, AudioError> {
    engine.play_with_priority(0, AdsrSpec::pad(), priority)
}

/// Whether a sound request is refused after a list of them, under LowestPriorityOldest.
fn is_refused<const N: usize>(list: &[u8], priority: u8) -> bool {
    let config = AudioConfig::new(RATE, 1_000, DutyMode::Linear);
    let mut engine = AudioEngine::<N>::with_voice_count(config);
    engine.set_bank(SoundBank::over(&BANK, RATE, 1));
    for each in list {
        // One that is refused leaves the box as it was.
        let _ = play(&mut engine, *each);
    }
    play(&mut engine, priority) == Err(AudioError::VoiceBusy)
}

/// The list of a number: its digits in base `priorities`.
fn list(mut number: u32, priorities: u8, requests: u8) -> Vec<u8> {
    let mut digit = || {
        let digit = number % priorities as u32;
        number /= priorities as u32;
        digit as u8
    };
    (0..requests).map(|_| digit()).collect()
}

fn refused<const N: usize>(priorities: u8, requests: u8, priority: u8) -> i64 {
    let lists = (priorities as u32).pow(requests as u32);
    let all = (0..lists).map(|number| list(number, priorities, requests));
    all.filter(|list| is_refused::<N>(list, priority)).count() as i64
}

fn refused_of(voices: u8, priorities: u8, requests: u8, priority: u8) -> i64 {
    macro_rules! of {
        ($($count:literal)*) => {
            match voices {
                $($count => refused::<$count>(priorities, requests, priority),)*
                _ => unreachable!("more voices than are opened"),
            }
        };
    }
    of!(0 1 2 3 4 5 6 7 8 9 10 11 12 13 14 15 16)
}

fn count([voices, priorities, requests, priority]: [u8; 4]) -> Ruled<i64> {
    let in_range = (1..=MOST_PRIORITIES).contains(&priorities)
        && requests <= MOST_REQUESTS
        && voices <= MOST_VOICES
        && priority < priorities;
    if !in_range {
        return Err(BAD_COUNT);
    }
    let mut known = KNOWN.lock().expect("no other thread");
    let asked = [voices, priorities, requests, priority];
    let tried = || refused_of(voices, priorities, requests, priority);
    Ok(*known.entry(asked).or_insert_with(tried))
}

/// The lists after which it is refused and those after which it is accepted, 8 digits each.
pub fn counts(fields: &mut Fields, answers: &mut Answers) -> Answered {
    let asked = [fields.u8(), fields.u8(), fields.u8(), fields.u8()];
    let lists = || (asked[1] as i64).pow(asked[2] as u32);
    let both = count(asked).map(|refused| refused << 32 | (lists() - refused));
    answers.numbered(both, 16)
}
