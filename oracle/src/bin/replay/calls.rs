//! What a record of an engine is handed.

use crate::answers::Answers;
use crate::fields::{Answered, Fields};

/// The most bytes that are lent.
pub const MOST_LENT: usize = 4_096;

/// A record without its code, the bytes lent to it, and where its answer goes.
pub struct Call<'a> {
    pub fields: Fields<'a>,
    pub lent: &'a [u8],
    pub answers: &'a mut Answers,
}

/// An engine of any number of voices, of either document.
pub trait Mixer {
    fn answer(&mut self, code: u8, call: &mut Call) -> Answered;
}
