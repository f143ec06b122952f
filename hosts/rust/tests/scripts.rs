//! Whole scripts through the library, among them the recorded answers of the original.

use std::path::PathBuf;

use birchjack::{Ran, answers, answers_of, sound, sound_of};

fn recorded(name: &str) -> Vec<u8> {
    let path: PathBuf = [env!("CARGO_MANIFEST_DIR"), "../../crates/replay", name]
        .iter()
        .collect();
    std::fs::read(&path).unwrap_or_else(|e| panic!("{}: {e}", path.display()))
}

#[test]
fn the_recorded_script_is_answered_as_the_original_answered_it() {
    let script = recorded("stdin");
    let (out, good) = answers_of(&script);
    assert!(out == recorded("stdout"), "the answers differ");
    // the record's last line is a bad one
    assert!(!good);
}

#[test]
fn lines() {
    // gain and sine, the last line with and without its newline
    for script in [&b"407FFF\n4540\n"[..], b"407FFF\n4540"] {
        assert_eq!(answers_of(script), (b"7E\n3F\n".to_vec(), true));
    }
    assert_eq!(answers_of(b""), (vec![], true));
    // an empty line is bad, and ends the run
    assert_eq!(
        answers_of(b"4540\n\n4540\n"),
        (b"3F\nFFFF\n".to_vec(), false)
    );
    assert_eq!(answers_of(b"4540\r\n4540\n"), (b"FFFF\n".to_vec(), false));
}

#[test]
fn as_much_as_there_is_room_for() {
    let script = b"4540\n407FFF\n";
    let mut out = *b"....";
    assert_eq!(answers(script, &mut out), Ran { len: 6, good: true });
    assert_eq!(&out, b"3F\n7");
    let mut out = *b"........";
    assert_eq!(answers(script, &mut out), Ran { len: 6, good: true });
    assert_eq!(&out, b"3F\n7E\n..");
}

#[test]
fn sounds() {
    // present rules: two voices at 16,000 Hz, a square of 1,000 Hz that does not end, three frames as duties and one stereo pair of them
    let script = b"700200003E8003E800FF00\n15000003E8000000\n200003\n290002\n";
    let (cells, good) = sound_of(script);
    assert!(good);
    assert_eq!(cells.len(), 8);
    // each mono frame sounds on both sides
    for pair in cells[..6].chunks(2) {
        assert_eq!(pair[0], pair[1]);
    }
    // the duties are those of the frames that sound
    let (text, _) = answers_of(script);
    let line = text.split(|b| *b == b'\n').nth(1).unwrap();
    let duties: Vec<u16> = line[4..]
        .chunks(4)
        .map(|d| u16::from_str_radix(std::str::from_utf8(d).unwrap(), 16).unwrap())
        .collect();
    assert_eq!(duties, [0x01FF, 0x021B, 0x0246]);
    for (pair, duty) in cells[..6].chunks(2).zip(duties) {
        assert_eq!(birchjack::duty_of((pair[0] / 256) as i8, 1000), Ok(duty));
    }
    let mut few = [1; 5];
    assert_eq!(sound(script, &mut few), Ran { len: 8, good: true });
    assert_eq!(few, cells[..5]);
}

/// A fade of 64 frames to the tone that plays, by either fade call: 256 frames later the box is silent after the one, and sounds on after the other.
#[test]
fn the_second_fade_sounds_on() {
    let heard = |fade: &str| {
        let envelope = "000000008C00C8";
        let script = format!(
            "700200001F4003E800FF00
120000000000000000000001000000FF00B8010000000000000000
1100001F400001
130001{envelope}80
{fade}0001000A{envelope}
290200
290040
"
        );
        let (cells, good) = sound_of(script.as_bytes());
        assert!(good);
        cells[0x200..].iter().any(|cell| *cell != 0)
    };
    assert!(!heard("14"));
    assert!(heard("73"));
}
