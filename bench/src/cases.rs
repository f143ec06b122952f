//! What is measured: a row for each.

use crate::job::{Given, Job, Script};

/// Which box does the job.
#[derive(Clone, Copy)]
pub enum Rules {
    Document01,
    Document02,
}

pub struct Case {
    pub rules: Rules,
    pub name: String,
    /// Of what the job does many, and how many.
    pub unit: &'static str,
    pub units: usize,
    pub job: Job,
    pub script: Script,
}

const RATE: u32 = 44_100;
/// 256 blocks of 256: opening and playing are lost in them.
const LENGTH: usize = 65_536;
const TONE: u8 = 0;
const FM: u8 = 2;

/// Entry i has the id 3i + 1. Tones last a minute, FM voices sound on.
fn bank(count: u16, kind: u8) -> Vec<u8> {
    let mut bytes = vec![0; 10];
    for i in 0..count {
        bytes.extend((3 * i + 1).to_le_bytes());
        bytes.extend([kind, 0, 240, 0]);
        bytes.extend((200 + 37 * (i % 64)).to_le_bytes());
        bytes.extend(
            if kind == TONE {
                60_000u16
            } else {
                150 + i % 200
            }
            .to_le_bytes(),
        );
        bytes.extend([0; 6]);
    }
    bytes
}

struct Envelope {
    attack_ms: u16,
    decay_ms: u16,
}

/// The original's pad, which holds its level.
const PAD: Envelope = Envelope {
    attack_ms: 5,
    decay_ms: 80,
};
/// On its way for all of the frames.
const MOVING: Envelope = Envelope {
    attack_ms: 1500,
    decay_ms: 1500,
};

fn request(id: u16, envelope: &Envelope, priority: u8) -> Vec<u8> {
    let mut bytes = id.to_be_bytes().to_vec();
    bytes.extend(envelope.attack_ms.to_be_bytes());
    bytes.extend(envelope.decay_ms.to_be_bytes());
    bytes.push(200);
    bytes.extend(120u16.to_be_bytes());
    bytes.push(priority);
    bytes
}

/// As many requests as voices, so that all sound.
fn sounding(n: usize, kind: u8, envelope: &Envelope) -> Script {
    Script {
        n,
        mode: 0,
        bank: bank(255, kind),
        rate: RATE,
        count: 255,
        requests: (0..n as u16)
            .flat_map(|i| request(3 * (5 * i + 2) + 1, envelope, 128))
            .collect(),
        left: vec![],
        blep_hz: 0,
    }
}

/// As many as can wait, each under a label of its own.
fn waiting(script: Script) -> Script {
    let left = (0..32u16).flat_map(|i| {
        let mut bytes = (100 + i).to_be_bytes().to_vec();
        bytes.extend(request(3 * i + 1, &PAD, (i % 5) as u8));
        bytes
    });
    Script {
        left: left.collect(),
        ..script
    }
}

fn frames(name: &str, job: Job, script: Script) -> Case {
    Case {
        rules: Rules::Document01,
        name: format!("{name}, {} voices", script.n),
        unit: "frame",
        units: LENGTH,
        job,
        script,
    }
}

fn pcm(n: usize, cases: &mut Vec<Case>) {
    let jobs: [(&str, fn(usize) -> Job); 2] = [("mono", Job::Mono), ("stereo", Job::Stereo)];
    for (name, job) in jobs {
        let job = || job(LENGTH);
        cases.push(frames(
            &format!("{name}, tone"),
            job(),
            sounding(n, TONE, &PAD),
        ));
        cases.push(frames(&format!("{name}, FM"), job(), sounding(n, FM, &PAD)));
        let blep = Script {
            blep_hz: 440,
            ..sounding(n, TONE, &PAD)
        };
        cases.push(frames(&format!("{name}, PolyBLEP and tones"), job(), blep));
        cases.push(frames(
            &format!("{name}, tone, envelopes moving"),
            job(),
            sounding(n, TONE, &MOVING),
        ));
    }
}

fn duties(n: usize, cases: &mut Vec<Case>) {
    for (mode, name) in [
        (0, "linear"),
        (1, "sigma-delta"),
        (2, "sigma-delta of 2nd order"),
    ] {
        let script = Script {
            mode,
            ..sounding(n, TONE, &PAD)
        };
        cases.push(frames(
            &format!("duty, {name}, tone"),
            Job::Duty(LENGTH),
            script,
        ));
    }
}

/// 256 requests a voice for each opening. All are accepted where each priority from 0 on comes as often as there are voices; all but the
/// first few are turned down where every one is 0.
fn plays(n: usize, cases: &mut Vec<Case>) {
    let count = 256 * n;
    for (name, rising) in [("accepted", true), ("turned down", false)] {
        let requests = (0..count)
            .flat_map(|i| {
                let priority = if rising { i / n } else { 0 };
                request(3 * (i * 97 % 255) as u16 + 1, &PAD, priority as u8)
            })
            .collect();
        cases.push(Case {
            rules: Rules::Document01,
            name: format!("play, {name}, {n} voices"),
            unit: "request",
            units: 4 * count,
            job: Job::Play(4),
            script: Script {
                requests,
                ..sounding(n, TONE, &PAD)
            },
        });
    }
}

/// How many searches a job does, or a few more.
const SEARCHES: usize = 2000;

fn searches(count: u16, cases: &mut Vec<Case>) {
    let id = |i: u16| 3 * i + 1;
    let lists = [
        // The middle of an odd number of entries is looked at first.
        ("found at once", vec![id(count / 2)]),
        ("each id in turn", (0..count).map(id).collect()),
        ("no such id", vec![id(count / 2) - 1]),
    ];
    for (name, ids) in lists {
        let times = SEARCHES.div_ceil(ids.len());
        cases.push(Case {
            rules: Rules::Document01,
            name: format!("search, {count} entries, {name}"),
            unit: "search",
            units: times * ids.len(),
            job: Job::Find(ids, times),
            script: Script {
                bank: bank(count, TONE),
                count,
                requests: vec![],
                ..sounding(2, TONE, &PAD)
            },
        });
    }
}

/// How many banks a job writes.
const BANKS: usize = 200;

/// Sixty-four entries, their ids in no order, with a payload of so many bytes each.
fn writes(length: u32, cases: &mut Vec<Case>) {
    let entry = |i: u16| {
        let mut bytes = (i.wrapping_mul(40_503) + 17).to_be_bytes().to_vec();
        bytes.extend([(i % 6) as u8, 1, 200]);
        bytes.extend([1, 184, 0, 150]);
        bytes.extend(length.to_be_bytes());
        bytes
    };
    let given = Given {
        header: [9; 10],
        entries: (0..64).flat_map(entry).collect(),
        payloads: (0..64 * length).map(|at| at as u8).collect(),
    };
    cases.push(Case {
        rules: Rules::Document01,
        name: match length {
            0 => "write, 64 entries, no payloads".to_string(),
            _ => format!("write, 64 entries, {length} bytes each"),
        },
        unit: "bank",
        units: BANKS,
        job: Job::Write(given, BANKS),
        script: sounding(2, TONE, &PAD),
    });
}

/// Frames and requests, which a box does.
fn boxed() -> Vec<Case> {
    let mut cases = vec![];
    for n in [2, 16] {
        pcm(n, &mut cases);
        duties(n, &mut cases);
    }
    for n in [2, 16] {
        plays(n, &mut cases);
    }
    cases
}

/// The same jobs done by a box of the present rules, frames of voices all of whose gains are 255, and frames of voices all of which sound on while others wait.
fn present() -> Vec<Case> {
    let mut cases = boxed();
    for n in [2, 16] {
        let jobs: [(&str, fn(usize) -> Job); 2] = [("mono", Job::Mono), ("stereo", Job::Stereo)];
        for (name, job) in jobs {
            let name = format!("{name}, tone, full gains");
            cases.push(frames(&name, job(LENGTH), full(sounding(n, TONE, &PAD))));
        }
    }
    let script = waiting(sounding(16, TONE, &PAD));
    cases.push(Case {
        name: "mono, tone, 16 voices, 32 waiting".to_string(),
        ..frames("", Job::Waiting(LENGTH), script)
    });
    for case in &mut cases {
        case.rules = Rules::Document02;
        case.name = format!("present rules: {}", case.name);
    }
    cases
}

/// With every entry's gain and every sustain at 255; the master's is.
fn full(mut script: Script) -> Script {
    let gains = script.bank.iter_mut().skip(10 + 4).step_by(16);
    let sustains = script.requests.iter_mut().skip(6).step_by(10);
    gains.chain(sustains).for_each(|byte| *byte = 255);
    script
}

pub fn all() -> Vec<Case> {
    let mut cases = boxed();
    for count in [255, 4095] {
        searches(count, &mut cases);
    }
    for length in [0, 100] {
        writes(length, &mut cases);
    }
    cases.extend(present());
    cases
}
