//! The numbers of refusals, document 01's and those that document 02 adds, and the refusals at which no engine is asked.

pub const VOICE_COUNT: i64 = 1;
pub const BAD_RATE: i64 = 2;
pub const BAD_PERIOD: i64 = 3;
pub const TRUNCATED: i64 = 4;
pub const VOICE_BUSY: i64 = 5;
pub const NO_BANK: i64 = 6;
pub const BANK_MISMATCH: i64 = 7;
pub const NOT_FOUND: i64 = 8;
pub const INVALID_KIND: i64 = 9;
pub const NOT_CARRIED: i64 = 10;
pub const BAD_SUM: i64 = 11;
pub const LOW_RATE: i64 = 12;
pub const BAD_ENTRIES: i64 = 13;
pub const SHORT_BUFFER: i64 = 14;
pub const OFFSET_BEYOND: i64 = 15;
pub const RUNS_OVER: i64 = 16;
pub const LINE_FULL: i64 = 17;
pub const LABEL_WAITS: i64 = 18;
pub const NOT_WAITING: i64 = 19;
pub const BAD_COUNT: i64 = 22;

pub const MOST_VOICES: u8 = 16;
pub const HIGHEST_RATE: u32 = 65_537;
pub const LEAST_SIGNAL_RATE: u32 = 20;
pub const LEAST_PERIOD: u16 = 2;
pub const SUMS: std::ops::RangeInclusive<i32> = -2_048..=2_032;

/// A bank's header and one entry, in bytes.
const HEADER: usize = 10;
const ENTRY: usize = 16;

/// An answer, or the number of the refusal.
pub type Ruled<T> = Result<T, i64>;

pub fn opening(voices: u8, rate: u32, period: u16) -> Ruled<()> {
    if voices > MOST_VOICES {
        Err(VOICE_COUNT)
    } else if rate > HIGHEST_RATE {
        Err(BAD_RATE)
    } else if period < LEAST_PERIOD {
        Err(BAD_PERIOD)
    } else {
        Ok(())
    }
}

/// The original refuses a truncated bank where it parses a header, which is not read here.
pub fn setting(rate: u32, count: u16, length: usize) -> Ruled<()> {
    if rate > HIGHEST_RATE {
        Err(BAD_RATE)
    } else if HEADER + ENTRY * count as usize > length {
        Err(TRUNCATED)
    } else {
        Ok(())
    }
}
