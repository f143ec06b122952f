//! A script with one bad line, after which nothing is answered.

use crate::draw::Draw;
use crate::enginebad::{ENGINE, FRAMES, OPEN_PRESENT};
use crate::random::{self, RECORDS};
use crate::script::{Line, Script, mapper};
use crate::signals;
use crate::writing;

const LONGEST: usize = 8_194;

const BAD: [fn(&mut Draw) -> Line; 11] = [
    unknown_code,
    short,
    long,
    lower_case,
    other_byte,
    |_| Line::new(),
    over_long,
    bad_mode,
    too_many_samples,
    too_much_room,
    too_few_entries,
];

pub fn print(script: &mut Script, seed: u64, count: u32) {
    let mut draw = script.draw(seed);
    for _ in 0..draw.below(count + 1) {
        script.add(&random::any(&mut draw));
    }
    // By the seed and not by a draw, so that as many seeds as there are kinds have each kind once.
    let bad = BAD[seed as usize % BAD.len()](&mut draw);
    script.add(&bad);
    // At least one, since without it an empty line that lacked its newline would be no line.
    for _ in 0..=draw.below(count + 1) {
        script.add(&random::any(&mut draw));
    }
    script.ends_with_newline = draw.one_in(2);
}

fn unknown_code(draw: &mut Draw) -> Line {
    let mut line = random::any(draw);
    let code = loop {
        let code = draw.u8();
        let known = RECORDS.iter().any(|record| record.0 == code);
        // An engine's records are left out: they would be good here at times.
        if !known && !ENGINE.contains(&code) && !FRAMES.contains(&code) && code != OPEN_PRESENT {
            break code;
        }
    };
    line.splice(..2, format!("{code:02X}").into_bytes());
    line
}

/// The digits of a record's first fields where any number of bytes may come after them: samples of a mapper, a recording, payloads.
fn open_ended(line: &Line) -> Option<u32> {
    match &line[..2] {
        b"57" => Some(16),
        b"81" => Some(10),
        b"83" => Some(28),
        _ => None,
    }
}

/// Cut anywhere, or inside its first fields where the rest may be of any length.
fn short(draw: &mut Draw) -> Line {
    let mut line = random::any(draw);
    let below = open_ended(&line).unwrap_or(line.len() as u32);
    line.truncate(1 + draw.below(below - 1) as usize);
    line
}

/// With one digit or more after its end; with an odd number of them where it may be of any length.
fn long(draw: &mut Draw) -> Line {
    let mut line = random::any(draw);
    let more = match open_ended(&line) {
        Some(_) => 1 + 2 * draw.below(3),
        None => 1 + draw.below(20),
    };
    line.extend((0..more).map(|_| b'0'));
    line
}

fn lower_case(draw: &mut Draw) -> Line {
    let byte = draw.pick(b"abcdef");
    replaced(draw, byte)
}

fn other_byte(draw: &mut Draw) -> Line {
    let byte = draw.pick(b"/:@G`gxX+-. \t\r\0\x0B\x7F\x80\xB0\xFF");
    if draw.one_in(4) {
        let mut line = random::any(draw);
        line.push(byte);
        return line;
    }
    replaced(draw, byte)
}

fn replaced(draw: &mut Draw, byte: u8) -> Line {
    let mut line = random::any(draw);
    let place = draw.below(line.len() as u32) as usize;
    line[place] = byte;
    line
}

/// A mapper record with too many samples, by one digit or by many.
fn over_long(draw: &mut Draw) -> Line {
    let far = draw.below(200_000) as usize;
    let mut line = mapper(draw.below(3) as u8, 1_000, 0, &[]);
    line.resize(LONGEST + draw.pick(&[1, 2, 3, 4, far]).max(1), b'1');
    line
}

/// The period may be one that is refused: a bad field comes before any refusal.
fn bad_mode(draw: &mut Draw) -> Line {
    let beyond = 3 + draw.below(253) as u8;
    mapper(draw.pick(&[3, 255, beyond]), draw.u16(), 0, &[1, -1])
}

/// A run of the evacuation pattern of more than 2,048 samples, at any rate.
fn too_many_samples(draw: &mut Draw) -> Line {
    let beyond = 2_049 + draw.below(63_487) as u16;
    let (rate, first) = (draw.rate(), draw.u32());
    signals::pattern(rate, first, draw.pick(&[2_049, 65_535, beyond]))
}

/// A bank for a buffer of more than 4,096 bytes, whatever it would hold.
fn too_much_room(draw: &mut Draw) -> Line {
    let beyond = 4_097 + draw.below(61_439) as u16;
    writing::with_room(draw, &[4_097, 65_535, beyond])
}

/// More entries than the line has bytes for.
fn too_few_entries(draw: &mut Draw) -> Line {
    writing::cut_short(draw)
}
