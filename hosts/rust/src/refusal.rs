//! Document 01, "Where a call is turned down", and what document 02's requests add: numbers and words.

use std::fmt;

/// Why a call is turned down. The numbers are the papers'.
#[derive(Clone, Copy, Debug, PartialEq, Eq, Hash)]
#[repr(u8)]
pub enum Refusal {
    VoiceCount = 1,
    BadRate = 2,
    BadPeriod = 3,
    TruncatedBank = 4,
    VoiceBusy = 5,
    NoBank = 6,
    BankMismatch = 7,
    EffectNotFound = 8,
    InvalidEffectKind = 9,
    NotCarried = 10,
    BadSum = 11,
    LowRate = 12,
    BadEntries = 13,
    ShortBuffer = 14,
    BadOffset = 15,
    BadLength = 16,
    LineFull = 17,
    LabelWaiting = 18,
    NotWaiting = 19,
    NotCounted = 22,
}

impl Refusal {
    /// Every refusal, in the order of its number.
    pub const ALL: [Refusal; 20] = [
        Refusal::VoiceCount,
        Refusal::BadRate,
        Refusal::BadPeriod,
        Refusal::TruncatedBank,
        Refusal::VoiceBusy,
        Refusal::NoBank,
        Refusal::BankMismatch,
        Refusal::EffectNotFound,
        Refusal::InvalidEffectKind,
        Refusal::NotCarried,
        Refusal::BadSum,
        Refusal::LowRate,
        Refusal::BadEntries,
        Refusal::ShortBuffer,
        Refusal::BadOffset,
        Refusal::BadLength,
        Refusal::LineFull,
        Refusal::LabelWaiting,
        Refusal::NotWaiting,
        Refusal::NotCounted,
    ];

    /// The papers' number.
    pub fn number(self) -> u8 {
        self as u8
    }

    /// What the library's number says: 0 is no refusal.
    ///
    /// # Panics
    ///
    /// Of a number that no call answers (`error/specs/Numbers.antt`).
    pub(crate) fn read(number: u8) -> Result<(), Refusal> {
        match number {
            0 => Ok(()),
            n => Err(Refusal::ALL
                .into_iter()
                .find(|refusal| refusal.number() == n)
                .expect("a refusal's number")),
        }
    }
}

impl fmt::Display for Refusal {
    fn fmt(&self, f: &mut fmt::Formatter<'_>) -> fmt::Result {
        f.write_str(match self {
            Refusal::VoiceCount => "more than 16 voices",
            Refusal::BadRate => "sample rate above 65,537",
            Refusal::BadPeriod => "PWM period below 2",
            Refusal::TruncatedBank => "entries go past the bank's bytes",
            Refusal::VoiceBusy => "no voice for the request",
            Refusal::NoBank => "no bank set",
            Refusal::BankMismatch => "another number of bytes lent than set",
            Refusal::EffectNotFound => "no entry has the id",
            Refusal::InvalidEffectKind => "an entry's kind byte is above 5",
            Refusal::NotCarried => "an entry of a kind with stored samples",
            Refusal::BadSum => "a sum outside -2,048..2,032",
            Refusal::LowRate => "an evacuation pattern or its reader at a rate below 20",
            Refusal::BadEntries => "more than 64 entries, a kind above 5, a payload over 65,535 bytes, other lengths than lent, or an id twice",
            Refusal::ShortBuffer => "a buffer shorter than what is written to it",
            Refusal::BadOffset => "a payload's offset is past the end of the bank",
            Refusal::BadLength => "a payload runs past the end of the bank",
            Refusal::LineFull => "32 requests are waiting",
            Refusal::LabelWaiting => "a request is waiting under the label already",
            Refusal::NotWaiting => "no request is waiting under the label",
            Refusal::NotCounted => "more than 4 priorities, 8 requests or 16 voices, or a priority that is not among them",
        })
    }
}

impl std::error::Error for Refusal {}
