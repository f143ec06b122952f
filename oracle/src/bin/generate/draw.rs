//! Random fields, drawn so that edges are frequent.

use crate::edges;

/// A small generator (xorshift), so that a seed gives the same script everywhere.
pub struct Draw {
    state: u64,
    large: bool,
    /// Boxes of both documents and the records of the present rules; without it nothing else is drawn than before there were any.
    pub present: bool,
}

impl Draw {
    pub fn new(seed: u64) -> Self {
        // The state must not be 0, and near seeds must not begin alike.
        let state = (seed ^ 0x9E37_79B9_7F4A_7C15).wrapping_mul(0xBF58_476D_1CE4_E5B9) | 1;
        let mut draw = Self {
            state,
            large: true,
            present: false,
        };
        for _ in 0..8 {
            draw.bits();
        }
        draw
    }

    /// Draws no large sizes, for a list that has to stay small.
    pub fn modest(seed: u64) -> Self {
        let mut draw = Self::new(seed);
        draw.large = false;
        draw
    }

    pub fn bits(&mut self) -> u32 {
        self.state ^= self.state >> 12;
        self.state ^= self.state << 25;
        self.state ^= self.state >> 27;
        (self.state.wrapping_mul(0x2545_F491_4F6C_DD1D) >> 32) as u32
    }

    pub fn below(&mut self, bound: u32) -> u32 {
        ((self.bits() as u64 * bound as u64) >> 32) as u32
    }

    pub fn one_in(&mut self, count: u32) -> bool {
        self.below(count) == 0
    }

    pub fn pick<T: Copy>(&mut self, from: &[T]) -> T {
        from[self.below(from.len() as u32) as usize]
    }

    pub fn u8(&mut self) -> u8 {
        match self.below(3) {
            0 => self.pick(&edges::BYTES),
            _ => self.bits() as u8,
        }
    }

    /// The code of an open record: document 01's box or one of the present rules.
    pub fn open_code(&mut self) -> u8 {
        match self.present {
            true => self.pick(&[0x10, 0x70, 0x70]),
            false => 0x10,
        }
    }

    /// A gain: where the present rules run half of them are those around which the rule changes.
    pub fn gain(&mut self) -> u8 {
        match self.present && self.one_in(2) {
            true => self.pick(&[253, 254, 255, 255]),
            false => self.u8(),
        }
    }

    /// A pan: half of them likewise. To both sides of the middle one side's gain is 255 and the other's is next to it.
    pub fn pan(&mut self) -> u8 {
        match self.present && self.one_in(2) {
            true => self.pick(&[0, 1, 126, 127, 128, 128, 129, 130, 254, 255]),
            false => self.u8(),
        }
    }

    pub fn i8(&mut self) -> i8 {
        match self.below(3) {
            0 => self.pick(&edges::SAMPLES),
            _ => self.bits() as i8,
        }
    }

    pub fn u16(&mut self) -> u16 {
        match self.below(4) {
            0 => self.pick(&edges::HALVES),
            1 => self.below(20) as u16,
            2 => self.power() as u16,
            _ => self.bits() as u16,
        }
    }

    pub fn u32(&mut self) -> u32 {
        match self.below(5) {
            0 => self.pick(&edges::WORDS),
            1 => self.below(20),
            2 => self.power(),
            3 => self.below(70_000),
            _ => self.bits(),
        }
    }

    fn power(&mut self) -> u32 {
        let step = self.below(3).wrapping_sub(1);
        (1u32 << self.below(32)).wrapping_add(step)
    }

    pub fn rate(&mut self) -> u32 {
        match self.below(8) {
            0..=2 => self.pick(&edges::RATES),
            3 => self.below(20),
            4 => self.u32(),
            _ => self.below(65_538),
        }
    }

    pub fn sum(&mut self) -> i32 {
        match self.below(6) {
            0 => self.pick(&edges::SUMS),
            1 => self.pick(&edges::FAR_SUMS),
            2 => self.u32() as i32,
            3 => self.below(600) as i32 - 300,
            _ => self.below(4_200) as i32 - 2_100,
        }
    }

    pub fn integrator(&mut self) -> i32 {
        match self.below(3) {
            0 => self.pick(&edges::INTEGRATORS),
            1 => self.below(131_072) as i32 - 65_536,
            _ => self.u32() as i32,
        }
    }

    /// The bits of a binary32, most of them between -48 and 0, where the answer is worked out.
    pub fn float(&mut self) -> u32 {
        let near = self.below(7).wrapping_sub(3);
        match self.below(6) {
            0 => self.pick(&edges::FLOATS).wrapping_add(near),
            1 => self.bits(),
            2 => (self.below(281) as f32 / 4.0 - 60.0).to_bits(),
            _ => (self.bits() as f32 / u32::MAX as f32 * -50.0).to_bits(),
        }
    }

    /// A number of ticks or samples: mostly small, at times up to `most`.
    pub fn size(&mut self, most: u32) -> u32 {
        if self.large && self.one_in(150) {
            let shortfall = self.below(most + 1);
            return most - self.pick(&[0, shortfall, shortfall]);
        }
        match self.below(8) {
            0 => self.below(100),
            _ => self.below(12),
        }
    }
}
