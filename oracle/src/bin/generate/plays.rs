//! Scripts that run an engine: play requests among all the other calls, with frames or without.

mod waits;

use crate::bank::{self, Bank};
use crate::banks;
use crate::draw::Draw;
use crate::script::{Field, Script, WHOLE_STATE, lend, u8, u16, u32};

const MOST_VOICES: u8 = 16;
const RATES: [u32; 14] = [
    8_000, 8_000, 8_000, 8_000, 16_000, 16_000, 1_000, 1_000, 44_100, 65_537, 999, 20, 1, 0,
];
const REFUSED_RATES: [u32; 3] = [65_538, 70_000, u32::MAX];

/// How the priorities of requests are drawn while an engine is open.
#[derive(Clone, Copy)]
enum Priorities {
    Few,
    Any,
    Spread,
    Rising,
    /// As many equal ones as there are voices, then as many of the next.
    Levels,
}

/// What a run has among its calls: no frames, frames, frames and many fades, with what is left of them after every record, frames, fades and
/// starts of all kinds at equal priorities, or requests that wait with all by which they go in.
#[derive(Clone, Copy, PartialEq)]
pub enum Among {
    Nothing,
    Frames,
    Fades,
    Ages,
    Waits,
}

struct Plays<'a> {
    script: &'a mut Script,
    draw: Draw,
    among: Among,
    voices: u8,
    priorities: Priorities,
    /// The first of the levels.
    level: u8,
    requests: u8,
    bank: Bank,
}

/// About `count` records, after document 01's examples.
pub fn print(script: &mut Script, seed: u64, count: u64, among: Among) {
    script.after_each = match (among == Among::Fades, script.present) {
        (false, false) => &[],
        (true, false) => &[0x79],
        (false, true) => WHOLE_STATE,
        (true, true) => &[0x79, 0x30, 0x7A],
    };
    let mut draw = script.draw(seed);
    examples(script, &mut draw);
    let end = script.lines + count;
    let bank = Bank::draw(&mut draw, 4, 0);
    let mut plays = Plays {
        script,
        draw,
        among,
        voices: ((seed * 5) % (MOST_VOICES as u64 + 1)) as u8,
        priorities: Priorities::Few,
        level: 0,
        requests: 0,
        bank,
    };
    plays.open();
    while plays.script.lines < end {
        plays.step();
    }
    plays.script.record(0x30, &[]);
    plays.script.after_each = &[];
    plays.script.ends_with_newline = seed.is_multiple_of(2);
}

/// Rates 65,537 and 65,538, 16 voices and 17; then two silent voices with requests 3, 5, 5, 7.
fn examples(script: &mut Script, draw: &mut Draw) {
    for (voices, rate) in [
        (2, 65_537),
        (2, 65_538),
        (16, 8_000),
        (17, 8_000),
        (2, 8_000),
    ] {
        let fields = [u8(voices), u32(rate), u16(1_000), u8(0), u8(255), u8(0)];
        script.record(draw.open_code(), &fields);
    }
    // One entry: id 7, FM, gain 200, 440 Hz, ratio 150, no payload.
    let mut bytes = vec![0; bank::HEADER];
    bytes.extend([7, 0, 2, 0, 200, 0, 0xB8, 1, 150, 0, 0, 0, 0, 0, 0, 0]);
    script.add(&lend(&bytes));
    script.record(0x11, &[u32(8_000), u16(1)]);
    for priority in [3, 5, 5, 7] {
        let envelope = [u16(5), u16(80), u8(200), u16(120)];
        let fields = [&[u16(7)], &envelope[..], &[u8(priority)]].concat();
        script.record(0x13, &fields);
        script.record(0x30, &[]);
    }
}

type Step<'a> = fn(&mut Plays<'a>);

impl<'a> Plays<'a> {
    /// What a step may be, and how often it is beside the others.
    const STEPS: [(u32, Step<'a>); 19] = [
        (50, Self::play),
        (2, Self::burst),
        (5, Self::allocate),
        (5, Self::audible),
        (8, Self::fade),
        (3, Self::tone),
        (3, Self::polyblep),
        (4, Self::pan),
        (2, Self::master_gain),
        (2, Self::stop_all),
        (2, Self::set_bank),
        (3, Self::lend_other),
        (2, Self::open_next),
        (2, Self::search),
        (2, Self::payload),
        (2, Self::open_refused),
        (6, Self::plain_play),
        (3, Self::told),
        (2, Self::voice),
    ];

    fn step(&mut self) {
        // Where there are boxes of both documents they change a few times in a run.
        if self.draw.present && self.draw.one_in(40) {
            self.open_next();
        }
        match self.among {
            Among::Ages => return self.aging_step(),
            Among::Waits => return self.waiting_step(),
            _ => (),
        }
        if self.among != Among::Nothing && self.draw.one_in(2) {
            self.frame();
        } else if self.among == Among::Fades && self.draw.one_in(4) {
            self.fade();
        } else {
            let all: u32 = Self::STEPS.iter().map(|step| step.0).sum();
            let mut place = self.draw.below(all);
            let chosen = Self::STEPS.iter().find(|step| {
                let found = place < step.0;
                place = place.saturating_sub(step.0);
                found
            });
            chosen.expect("a step of the list").1(self);
        }
        let dumps = if self.among == Among::Nothing { 4 } else { 2 };
        if !self.draw.one_in(dumps) {
            self.script.record(0x30, &[]);
        }
    }

    /// Mostly starts of a voice; fades and frames, by which voices end in the middle; stops and new banks at times.
    fn aging_step(&mut self) {
        match self.draw.below(24) {
            0..=6 => self.frame(),
            7..=10 => self.fade(),
            11 => self.tone(),
            12 => self.polyblep(),
            13 => self.allocate(),
            14 => self.plain_play(),
            15 if self.draw.one_in(4) => self.stop_all(),
            15 if self.draw.one_in(3) => self.new_bank(),
            16 if self.draw.one_in(4) => self.burst(),
            _ => self.play(),
        }
    }

    /// Each engine has another number of voices: 17 of them go through all. Ages are told apart by few voices as well as by many, and two of them end.
    fn open_next(&mut self) {
        self.voices = (self.voices + 1) % (MOST_VOICES + 1);
        if self.among == Among::Ages && self.draw.one_in(2) {
            self.voices = 2 + self.draw.below(4) as u8;
        }
        if self.among == Among::Waits && !self.draw.one_in(4) {
            self.voices = self.draw.below(5) as u8;
        }
        self.open();
    }

    fn open(&mut self) {
        let draw = &mut self.draw;
        use Priorities::{Any, Few, Levels, Rising, Spread};
        self.priorities = match self.among == Among::Ages {
            true => draw.pick(&[Few, Levels, Levels, Levels]),
            false => draw.pick(&[Few, Few, Any, Spread, Rising]),
        };
        // A tone has priority 0, a fade's sound 128.
        self.level = match self.among == Among::Ages {
            true => draw.pick(&[0, 1, 124, 127, 128]),
            false => 0,
        };
        self.requests = 0;
        let rates = [draw.pick(&RATES), draw.pick(&RATES), draw.below(65_538)];
        let (period, gain) = (draw.u16().max(2), draw.gain());
        let fields = [
            u8(self.voices),
            u32(draw.pick(&rates)),
            u16(draw.pick(&[2, 3, 1_000, 1_000, 65_535, period])),
            u8(draw.below(3) as u8),
            u8(draw.pick(&[255, 255, 255, 128, gain])),
            u8(draw.one_in(3) as u8),
        ];
        let code = self.open_code();
        self.script.record(code, &fields);
        if !self.draw.one_in(8) {
            self.new_bank();
        }
        if self.draw.one_in(2) {
            self.burst();
        }
    }

    /// Where requests wait mostly one of the present rules: the other has none.
    fn open_code(&mut self) -> u8 {
        match self.among == Among::Waits && !self.draw.one_in(6) {
            true => 0x70,
            false => self.draw.open_code(),
        }
    }

    /// Refused for one reason or for more; the old engine stays.
    fn open_refused(&mut self) {
        let draw = &mut self.draw;
        let reasons = 1 + draw.below(7);
        let voices = match reasons & 1 {
            0 => draw.below(17) as u8,
            _ => draw.pick(&[17, 18, 255]),
        };
        let rate = match reasons & 2 {
            0 => draw.pick(&RATES),
            _ => draw.pick(&REFUSED_RATES),
        };
        let period = match reasons & 4 {
            0 => draw.pick(&[2, 1_000, 65_535]),
            _ => draw.below(2) as u16,
        };
        let fields = [
            u8(voices),
            u32(rate),
            u16(period),
            u8(draw.below(3) as u8),
            u8(draw.u8()),
            u8(draw.below(2) as u8),
        ];
        self.script.record(self.draw.open_code(), &fields);
    }

    /// Lends a bank and sets it.
    fn new_bank(&mut self) {
        let large = self.draw.below(40) as usize;
        let count = self.draw.pick(&[1, 2, 4, 6, 9, large]);
        let tail = bank::tail(&mut self.draw, count);
        let sound = self.among == Among::Ages || self.among == Among::Waits && self.draw.one_in(2);
        self.bank = match sound {
            true => Bank::mostly_sound(&mut self.draw, count, tail),
            false => Bank::draw(&mut self.draw, count, tail),
        };
        self.script.add(&lend(&self.bank.bytes));
        self.set_bank();
    }

    /// Over the bytes lent now, which need not be those of the bank set.
    fn set_bank(&mut self) {
        let (count, draw) = (self.bank.count(), &mut self.draw);
        if draw.one_in(4) {
            let rate = draw.pick(&REFUSED_RATES);
            let fields = match draw.below(3) {
                0 => [u32(rate), u16(count)],
                1 => [u32(rate), u16(65_535)],
                _ => [u32(8_000), u16(count + 40)],
            };
            self.script.record(0x11, &fields);
        }
        self.script
            .record(0x11, &[u32(self.draw.pick(&RATES)), u16(count)]);
    }

    fn lend_other(&mut self) {
        match self.draw.below(4) {
            0 => self.new_bank(),
            1 => self.lend_another_length(),
            _ => {
                let count = self.bank.ids.len();
                let tail = self.bank.bytes.len() - bank::HEADER - bank::ENTRY * count;
                self.bank = Bank::draw(&mut self.draw, count, tail);
                self.script.add(&lend(&self.bank.bytes));
            }
        }
    }

    /// For a few calls, after which the old bytes are lent again.
    fn lend_another_length(&mut self) {
        let length = self.bank.bytes.len();
        let other = self.draw.pick(&[length - 1, length + 1, 0, 10]);
        let mut bytes = self.bank.bytes.clone();
        bytes.resize(other, 0);
        self.script.add(&lend(&bytes));
        for _ in 0..2 {
            self.play();
            self.fade();
            self.search();
            self.payload();
            self.script.record(0x30, &[]);
            if self.among == Among::Waits {
                self.stopped_frame();
            }
        }
        self.script.add(&lend(&self.bank.bytes));
    }

    fn priority(&mut self) -> u8 {
        self.requests = self.requests.wrapping_add(1);
        match self.priorities {
            Priorities::Few => self.draw.below(4) as u8,
            Priorities::Any => self.draw.u8(),
            Priorities::Spread => 85 * self.draw.below(4) as u8,
            Priorities::Rising => self.requests,
            Priorities::Levels => {
                let level = self
                    .level
                    .saturating_add(self.requests / self.voices.max(1));
                let (above, below) = (level.saturating_add(1), level.saturating_sub(1));
                let near = [level, level, level, level, above, below];
                self.draw.pick(&near)
            }
        }
    }

    fn ms(&mut self) -> u16 {
        let (short, any) = (self.draw.below(20) as u16, self.draw.u16());
        self.draw.pick(&[0, 0, 1, 2, short, short, short, any])
    }

    fn envelope(&mut self) -> [Field; 4] {
        let (attack, decay, release) = (self.ms(), self.ms(), self.ms());
        [u16(attack), u16(decay), u8(self.draw.gain()), u16(release)]
    }

    /// Mostly one that is there.
    fn id(&mut self) -> u16 {
        if self.bank.ids.is_empty() || self.draw.one_in(4) {
            self.bank.any_id(&mut self.draw)
        } else {
            self.draw.pick(&self.bank.ids)
        }
    }

    /// Requests one after the other, enough to fill an engine and to take voices in it.
    fn burst(&mut self) {
        let dumped = self.draw.one_in(2);
        for _ in 0..2 * self.voices + 2 {
            self.play();
            if dumped {
                self.script.record(0x30, &[]);
            }
        }
    }

    /// A request's id, envelope and priority.
    fn request(&mut self) -> Vec<Field> {
        let mut fields = vec![u16(self.id())];
        fields.extend(self.envelope());
        fields.push(u8(self.priority()));
        fields
    }

    fn play(&mut self) {
        let fields = self.request();
        self.script.record(0x13, &fields);
    }

    /// Without a priority.
    fn plain_play(&mut self) {
        let mut fields = vec![u16(self.id())];
        fields.extend(self.envelope());
        self.script.record(0x62, &fields);
    }

    /// What the engine was opened with, and has now.
    fn told(&mut self) {
        self.script.record(0x64, &[]);
        self.script.record(0x65, &[]);
    }

    /// A voice and its pan, also of voices that are not there.
    fn voice(&mut self) {
        let voice = self.place();
        self.script.record(0x63, &[u8(voice)]);
        self.script.record(0x69, &[u8(voice)]);
    }

    /// Many of the fades are long: with 255 samples or more each frame is one step.
    fn fade(&mut self) {
        let (short, any) = (self.draw.below(60) as u16, self.draw.u16());
        let ms = self.draw.pick(&[0, 1, short, short, 300, any]);
        let mut fields = vec![u16(self.id()), u16(ms)];
        fields.extend(self.envelope());
        let sounding_on = self.script.is_present() && self.draw.one_in(2);
        let code = if sounding_on { 0x73 } else { 0x14 };
        self.script.record(code, &fields);
    }

    fn tone(&mut self) {
        self.start(0x15, 3);
    }

    fn polyblep(&mut self) {
        self.start(0x16, 4);
    }

    fn start(&mut self, code: u8, waveforms: u32) {
        let (any, ms) = (self.draw.u32(), self.ms());
        let hz = self.draw.pick(&[440, 1_000, 123, any]);
        let waveform = self.draw.below(waveforms) as u8;
        self.script.record(code, &[u32(hz), u16(ms), u8(waveform)]);
    }

    /// A voice's place, also of voices that are not there.
    fn place(&mut self) -> u8 {
        let (any, near) = (
            self.draw.u8(),
            self.draw.below(self.voices as u32 + 2) as u8,
        );
        self.draw.pick(&[near, near, near, any])
    }

    fn pan(&mut self) {
        let voice = self.place();
        self.script.record(0x17, &[u8(voice), u8(self.draw.pan())]);
    }

    fn master_gain(&mut self) {
        let any = self.draw.gain();
        let gain = self.draw.pick(&[255, 255, any]);
        self.script.record(0x18, &[u8(gain)]);
    }

    fn stop_all(&mut self) {
        self.script.record(0x19, &[]);
    }

    fn search(&mut self) {
        banks::search(self.script, &mut self.draw, &self.bank);
    }

    fn payload(&mut self) {
        banks::payload(self.script, &mut self.draw, &self.bank);
    }

    fn allocate(&mut self) {
        let priority = self.priority();
        self.script.record(0x1C, &[u8(priority)]);
    }

    fn audible(&mut self) {
        self.script.record(0x1D, &[]);
    }

    fn frame(&mut self) {
        let code = match self.draw.below(16) as u8 {
            one @ 13.. => 0x66 + (one - 13),
            place => 0x20 + place,
        };
        if code > 0x2A {
            return self.script.record(code, &[]);
        }
        let draw = &mut self.draw;
        let cells = match draw.below(60) {
            0 => 2_048 - draw.below(1_500),
            1 => draw.pick(&[0, 1, 2_047, 2_048]),
            2..=10 => draw.below(600),
            _ => draw.below(24),
        };
        self.script.record(code, &[u16(cells as u16)]);
    }
}
