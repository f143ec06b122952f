//! What is printed.

use crate::fields::Answered;

/// The answers' text, as far as it is not yet handed on.
#[derive(Default)]
pub struct Answers(pub Vec<u8>);

impl Answers {
    /// The low `digits` digits, so that a negative comes out in two's complement.
    pub fn hex(&mut self, value: i64, digits: u32) {
        for place in (0..digits).rev() {
            let digit = (value >> (4 * place)) & 15;
            self.0.push(b"0123456789ABCDEF"[digit as usize]);
        }
    }

    pub fn end_line(&mut self) {
        self.0.push(b'\n');
    }

    /// 00 and the sample, or 0100 where none is given.
    pub fn given(&mut self, sample: Option<i8>) {
        self.hex(sample.map_or(0x100, |sample| sample as u8 as i64), 4);
    }

    /// Fields of a state, 16 digits each.
    pub fn fields(&mut self, state: &[i64]) {
        for field in state {
            self.hex(*field, 16);
        }
    }

    /// Ends a line with a value. It answers as a record does, so that a record can end with it.
    pub fn line(&mut self, value: i64, digits: u32) -> Answered {
        self.hex(value, digits);
        self.end_line();
        Ok(())
    }

    /// A line of a number and a value: 00 and the value, or a refusal and a value of 0.
    pub fn numbered(&mut self, value: Result<i64, i64>, digits: u32) -> Answered {
        self.hex(value.err().unwrap_or(0), 2);
        self.line(value.unwrap_or(0), digits)
    }

    /// A line of a number alone.
    pub fn number(&mut self, ruled: Result<(), i64>) -> Answered {
        self.line(ruled.err().unwrap_or(0), 2)
    }

    /// A line of a number and a voice, which is FF where there is none.
    pub fn voice(&mut self, voice: Result<usize, i64>) -> Answered {
        self.hex(voice.err().unwrap_or(0), 2);
        self.line(voice.map_or(0xFF, |voice| voice as i64), 2)
    }
}
