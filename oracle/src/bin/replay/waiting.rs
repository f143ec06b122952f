//! The requests that wait: document 02's T-08. The original has no line; this one is read plainly and apart from the port: the requests stay in the order in
//! which they were left, and are sorted afresh each time that one is wanted.

use super::original::envelope::AdsrSpec;
use super::rules::{self, Engine};
use crate::numbers::{LABEL_WAITS, LINE_FULL, NOT_WAITING, Ruled};
use std::cmp::Reverse;

const MOST_WAITING: usize = 32;

#[derive(Clone, Copy)]
pub struct Request {
    pub label: u16,
    pub id: u16,
    pub envelope: AdsrSpec,
    pub priority: u8,
}

#[derive(Default)]
pub struct Line {
    /// The earliest first.
    left: Vec<Request>,
    /// Number and label of the latest request that was dropped.
    pub kept: Option<(i64, u16)>,
}

impl Line {
    pub fn is_empty(&self) -> bool {
        self.left.is_empty()
    }

    pub fn leave(&mut self, request: Request) -> Ruled<()> {
        if self.place(request.label).is_some() {
            Err(LABEL_WAITS)
        } else if self.left.len() == MOST_WAITING {
            Err(LINE_FULL)
        } else {
            self.left.push(request);
            Ok(())
        }
    }

    pub fn withdraw(&mut self, label: u16) -> Ruled<Request> {
        let place = self.place(label).ok_or(NOT_WAITING)?;
        Ok(self.left.remove(place))
    }

    fn place(&self, label: u16) -> Option<usize> {
        self.left.iter().position(|request| request.label == label)
    }

    /// The highest priority first; a stable sort leaves the earliest first among equals.
    pub fn sorted(&self) -> Vec<Request> {
        let mut sorted = self.left.clone();
        sorted.sort_by_key(|request| Reverse(request.priority));
        sorted
    }

    pub fn next(&self) -> Option<Request> {
        self.sorted().first().copied()
    }

    /// The start of a frame. While a voice is free a play request gets the first one that is, whatever its priority, and is refused for its bank or
    /// entry alone.
    pub fn enter<const N: usize>(&mut self, engine: &mut Engine<N>, lent: &[u8]) {
        while engine.active_voice_count() < N
            && let Some(next) = self.next()
        {
            let Request {
                label,
                id,
                envelope,
                priority,
            } = next;
            self.left.retain(|request| request.label != label);
            if let Err(number) = rules::play(engine, lent, id, envelope, priority) {
                self.kept = Some((number, label));
            }
        }
    }
}
