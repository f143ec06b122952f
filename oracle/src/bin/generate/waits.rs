//! The steps of a run in which requests wait.

use super::Plays;
use crate::script::{u8, u16};

const MOST_WAITING: u16 = 32;

/// Few, so that many of those that are left wait already, and many of those that are withdrawn do not.
const LABELS: [u16; 12] = [
    0, 1, 2, 3, 4, 5, 0xFF, 0x100, 0x7FFF, 0x8000, 0xFFFE, 0xFFFF,
];

impl Plays<'_> {
    /// Voices become free by stops, new banks and fades, and by releases and tones that end after a fade.
    pub fn waiting_step(&mut self) {
        if !self.script.is_present() && self.draw.one_in(6) {
            return self.open_next();
        }
        match self.draw.below(32) {
            0..=8 => self.leave(),
            9..=14 => self.frame(),
            15..=17 | 27 => self.fade(),
            18..=19 => self.withdraw(),
            20 if self.draw.one_in(2) => self.tone(),
            20 => self.polyblep(),
            21 => self.play(),
            22 => self.next(),
            23..=26 => self.stopped_frame(),
            28 if self.draw.one_in(2) => self.lend_other(),
            28 => self.set_bank(),
            29 if self.draw.one_in(6) => self.crowd(),
            30 if self.draw.one_in(4) => self.burst(),
            31 if self.draw.one_in(4) => self.open_refused(),
            _ => self.frame(),
        }
    }

    fn leave(&mut self) {
        let label = self.label();
        self.leave_under(label);
    }

    /// In a box that has no line it is played.
    fn leave_under(&mut self, label: u16) {
        if !self.script.is_present() {
            return self.play();
        }
        let mut fields = vec![u16(label), u8(0)];
        fields.extend(self.request());
        self.script.record(0x74, &fields);
    }

    fn label(&mut self) -> u16 {
        match self.draw.one_in(16) {
            true => self.draw.u16(),
            false => self.draw.pick(&LABELS),
        }
    }

    fn withdraw(&mut self) {
        let label = self.label();
        self.withdraw_under(label);
    }

    fn withdraw_under(&mut self, label: u16) {
        if self.script.is_present() {
            self.script.record(0x75, &[u16(label)]);
        }
    }

    fn next(&mut self) {
        if self.script.is_present() {
            self.script.record(0x77, &[]);
        }
    }

    /// With every voice free; without the stop those that are.
    pub fn stopped_frame(&mut self) {
        self.stop_all();
        self.frame();
    }

    /// More than can wait, one label after the other, and now and then one of them again, also where the line is full. Then some are withdrawn, and
    /// some go in.
    fn crowd(&mut self) {
        let first = self.draw.u16();
        for place in 0..MOST_WAITING + 4 {
            self.leave_under(first.wrapping_add(place));
            if self.draw.one_in(8) {
                let again = self.near(first, place + 1);
                self.leave_under(again);
            }
        }
        self.next();
        for _ in 0..self.draw.below(12) {
            let label = self.near(first, MOST_WAITING + 8);
            self.withdraw_under(label);
        }
        for _ in 0..self.draw.below(6) {
            self.stopped_frame();
        }
    }

    /// One of so many labels from the first on.
    fn near(&mut self, first: u16, count: u16) -> u16 {
        first.wrapping_add(self.draw.below(count as u32) as u16)
    }
}
