//! What both sides do.

use std::hint::black_box;

/// An engine's start: its bank, and what is played in it.
pub struct Script {
    pub n: usize,
    pub mode: u8,
    pub bank: Vec<u8>,
    pub rate: u32,
    pub count: u16,
    /// Ten bytes each: id, attack, decay, sustain, release, priority; big-endian.
    pub requests: Vec<u8>,
    /// Twelve bytes each: a label, then a request.
    pub left: Vec<u8>,
    /// PolyBLEP on voice 0, after the requests, where it is not 0.
    pub blep_hz: u32,
}

/// What a bank is made of: a header, entries of thirteen bytes, and the payloads end to end.
pub struct Given {
    pub header: [u8; 10],
    pub entries: Vec<u8>,
    pub payloads: Vec<u8>,
}

/// The calls of one side. Each does its job whole, as the port's calls for other languages do.
pub trait Side {
    fn find(bank: &[u8], rate: u32, count: u16, id: u16, entry: &mut [u32; 8]) -> u8;
    fn write(given: &Given, out: &mut [u8]) -> usize;
    fn play(script: &Script) -> usize;
    fn mono(script: &Script, out: &mut [i16]) -> usize;
    /// The same while requests wait, for which no voice falls free.
    fn waiting(script: &Script, out: &mut [i16]) -> usize;
    fn stereo(script: &Script, out: &mut [i16]) -> usize;
    fn duty(script: &Script, out: &mut [u16]) -> usize;
}

pub enum Job {
    /// A search for each of these ids in turn, this many times.
    Find(Vec<u16>, usize),
    /// A bank, written this many times.
    Write(Given, usize),
    /// The script's requests, this many times from an opening on.
    Play(usize),
    /// This many frames.
    Mono(usize),
    Waiting(usize),
    Stereo(usize),
    Duty(usize),
}

/// What a job answers: equal for both sides.
#[derive(Clone, PartialEq, Default)]
pub struct Answer {
    number: usize,
    entry: [u32; 8],
    pcm: Vec<i16>,
    duty: Vec<u16>,
    bank: Vec<u8>,
}

impl Answer {
    /// With cells for the job.
    pub fn to(job: &Job) -> Answer {
        let (pcm, duty) = match *job {
            Job::Mono(frames) | Job::Waiting(frames) => (frames, 0),
            Job::Stereo(frames) => (2 * frames, 0),
            Job::Duty(frames) => (0, frames),
            Job::Find(..) | Job::Write(..) | Job::Play(_) => (0, 0),
        };
        let bank = match job {
            Job::Write(given, _) => 10 + given.entries.len() / 13 * 16 + given.payloads.len(),
            _ => 0,
        };
        Answer {
            pcm: vec![0; pcm],
            duty: vec![0; duty],
            bank: vec![0; bank],
            ..Answer::default()
        }
    }

    /// Whether something other than silence came.
    pub fn is_telling(&self) -> bool {
        let pcm = self
            .pcm
            .iter()
            .collect::<std::collections::BTreeSet<_>>()
            .len();
        let duty = self
            .duty
            .iter()
            .collect::<std::collections::BTreeSet<_>>()
            .len();
        self.number > 0 && pcm != 1 && duty != 1
    }
}

pub fn run<S: Side>(job: &Job, script: &Script, answer: &mut Answer) {
    match job {
        Job::Find(ids, times) => {
            for _ in 0..*times {
                for &id in ids {
                    let number = S::find(
                        &script.bank,
                        script.rate,
                        script.count,
                        black_box(id),
                        &mut answer.entry,
                    );
                    answer.number += 1 + number as usize;
                }
            }
        }
        Job::Write(given, times) => {
            for _ in 0..*times {
                answer.number += S::write(black_box(given), &mut answer.bank);
            }
        }
        Job::Play(times) => {
            for _ in 0..*times {
                answer.number += S::play(black_box(script));
            }
        }
        Job::Mono(_) => answer.number = S::mono(script, &mut answer.pcm),
        Job::Waiting(_) => answer.number = S::waiting(script, &mut answer.pcm),
        Job::Stereo(_) => answer.number = S::stereo(script, &mut answer.pcm),
        Job::Duty(_) => answer.number = S::duty(script, &mut answer.duty),
    }
}
