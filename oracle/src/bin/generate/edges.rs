//! The values at which answers change, or at which a slip would show.

pub const BYTES: [u8; 17] = [
    0, 1, 2, 3, 63, 64, 95, 96, 97, 126, 127, 128, 129, 130, 192, 254, 255,
];

pub const SAMPLES: [i8; 42] = [
    -128, -127, -126, -125, -100, -97, -96, -95, -65, -64, -63, -50, -33, -32, -31, -17, -16, -15,
    -3, -2, -1, 0, 1, 2, 3, 15, 16, 17, 31, 32, 33, 50, 63, 64, 65, 95, 96, 97, 100, 125, 126, 127,
];

/// Also the periods of the duty set.
pub const HALVES: [u16; 17] = [
    0, 1, 2, 3, 4, 5, 127, 128, 255, 256, 999, 1_000, 1_001, 32_767, 32_768, 65_534, 65_535,
];

pub const RATES: [u32; 14] = [
    0, 1, 20, 999, 1_000, 1_001, 8_000, 16_000, 22_050, 44_100, 48_000, 65_535, 65_537, 65_538,
];

pub const WORDS: [u32; 28] = [
    0,
    1,
    2,
    3,
    20,
    127,
    128,
    255,
    256,
    440,
    999,
    1_000,
    1_001,
    8_000,
    44_100,
    48_000,
    65_535,
    65_536,
    65_537,
    65_538,
    0x00FF_FFFF,
    0x0100_0000,
    0x0100_0001,
    0x7FFF_FFFF,
    0x8000_0000,
    0x8000_0001,
    0xFFFF_FFFE,
    0xFFFF_FFFF,
];

/// The limiter's knees and the ends of what it takes.
pub const SUMS: [i32; 16] = [
    -2_050, -2_049, -2_048, -2_047, -128, -98, -97, -96, 96, 97, 98, 127, 2_031, 2_032, 2_033,
    2_034,
];

pub const FAR_SUMS: [i32; 14] = [
    i32::MIN,
    i32::MIN + 1,
    i32::MIN + 96,
    -16_777_216,
    -65_536,
    -32_769,
    -32_768,
    32_767,
    32_768,
    65_536,
    16_777_216,
    69_273_666,
    i32::MAX - 1,
    i32::MAX,
];

pub const INTEGRATORS: [i32; 14] = [
    i32::MIN,
    i32::MIN + 1,
    i32::MIN + 32_767,
    i32::MIN + 32_768,
    -65_536,
    -32_513,
    -32_512,
    -1,
    0,
    1,
    32_768,
    65_536,
    i32::MAX - 32_512,
    i32::MAX,
];

/// NaNs, infinities, both zeros, subnormals, and 0 and -48 dB, where the rule changes.
pub const FLOATS: [u32; 26] = [
    0x0000_0000,
    0x0000_0001,
    0x0000_0002,
    0x007F_FFFF,
    0x0080_0000,
    0x3F80_0000,
    0x7F7F_FFFF,
    0x7F80_0000,
    0x7F80_0001,
    0x7FBF_FFFF,
    0x7FC0_0000,
    0x7FFF_FFFF,
    0x8000_0000,
    0x8000_0001,
    0x807F_FFFF,
    0x8080_0000,
    0xBF80_0000,
    0xC240_0000 - 1,
    0xC240_0000,
    0xC240_0000 + 1,
    0xFF7F_FFFF,
    0xFF80_0000,
    0xFF80_0001,
    0xFFBF_FFFF,
    0xFFC0_0000,
    0xFFFF_FFFF,
];

/// Each power of two and its two neighbours.
pub fn powers() -> impl Iterator<Item = u32> {
    let around = |bit: u32| [-1i32, 0, 1].map(|step| (1u32 << bit).wrapping_add_signed(step));
    (0..32).flat_map(around)
}
