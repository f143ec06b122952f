//! Scripts of an engine, by name: those without frames and those with them.

use crate::enginebad::{self, ENGINE, FRAMES, OPEN_PRESENT};
use crate::plays::{self, Among};
use crate::script::{PRESENT_ONLY, Script};
use crate::{banks, drift, orders, payloads};

type Print = fn(&mut Script, u64, u64);

pub const NAMES: [(&str, Print); 3] = [
    ("banks", banks::print),
    ("plays", |script, seed, count| {
        plays::print(script, seed, count, Among::Nothing)
    }),
    ("enginebad", |script, seed, count| {
        let codes = engine_codes(script);
        let added: &[u8] = if script.present { &PRESENT_ONLY } else { &[] };
        let spoilt = [&codes[..], added].concat();
        enginebad::print(script, seed, count as u32, &spoilt, &codes)
    }),
];

/// Those of the present rules.
pub const PRESENT_NAMES: [(&str, Print); 2] = [
    ("payloads", payloads::print),
    ("otherbox", |script, seed, count| {
        let codes = engine_codes(script);
        enginebad::print_in_other_box(script, seed, count as u32, &codes)
    }),
];

pub const FRAME_NAMES: [(&str, Print); 4] = [
    ("drift", drift::print),
    ("frames", |script, seed, count| {
        plays::print(script, seed, count, Among::Frames)
    }),
    ("fades", |script, seed, count| {
        plays::print(script, seed, count, Among::Fades)
    }),
    ("framebad", |script, seed, count| {
        let all = [&engine_codes(script)[..], &FRAMES].concat();
        enginebad::print(script, seed, count as u32, &FRAMES, &all)
    }),
];

/// Those of the present rules.
pub const PRESENT_FRAME_NAMES: [(&str, Print); 4] = [
    ("ages", |script, seed, count| {
        plays::print(script, seed, count, Among::Ages)
    }),
    ("waits", |script, seed, count| {
        plays::print(script, seed, count, Among::Waits)
    }),
    ("orders", orders::print),
    ("waitorders", orders::print_waiting),
];

fn engine_codes(script: &Script) -> Vec<u8> {
    let mut codes = ENGINE.to_vec();
    codes.extend(script.present.then_some(OPEN_PRESENT));
    codes
}

/// Nothing where there is no such name.
pub fn print(script: &mut Script, name: &str, seed: u64, count: u64) -> Option<()> {
    let present = PRESENT_NAMES.iter().chain(&PRESENT_FRAME_NAMES);
    let mut named = NAMES.iter().chain(&FRAME_NAMES).chain(present);
    let print = named.find(|named| named.0 == name)?.1;
    print(script, seed, count);
    Some(())
}

/// For the recorded list: small banks and a few hundred records, with frames or without.
pub fn recorded(script: &mut Script, frames: bool) {
    banks::print(script, 0, 14);
    let among = if frames {
        Among::Frames
    } else {
        Among::Nothing
    };
    for seed in [2, 5] {
        plays::print(script, seed, 250, among);
    }
    if frames {
        plays::print(script, 3, 500, Among::Fades);
    }
    script.ends_with_newline = true;
}

/// For the recorded list: boxes of both documents.
pub fn recorded_present(script: &mut Script) {
    banks::print(script, 1, 3);
    plays::print(script, 4, 750, Among::Frames);
    plays::print(script, 6, 450, Among::Fades);
    payloads::recorded(script);
    plays::print(script, 1, 1_000, Among::Ages);
    orders::print(script, 7, 2);
    plays::print(script, 14, 2_000, Among::Waits);
    orders::print_waiting(script, 7, 2);
    script.ends_with_newline = true;
}
