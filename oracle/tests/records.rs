//! The replay program's records of an engine: their fields reach the original's calls, and the answers are its own.

mod common;

use common::*;
use oracle::Peek;
use oracle::bank::SoundBank;
use oracle::config::AudioConfig;
use oracle::engine::AudioEngine;
use oracle::envelope::AdsrSpec;
use oracle::output::DutyMode;
use oracle::synth::PolyBlepWaveform;

/// What `OPEN` opens.
fn engine<'a>() -> AudioEngine<'a, 2> {
    AudioEngine::new(AudioConfig::new(8_000, 1_000, DutyMode::Linear))
}

/// Three voices, 8,000 Hz, period 1,001, second order, master gain 30, FreeChannelOnly.
#[test]
fn an_opening_s_fields() {
    let lines = answers(&["100300001F4003E9021E01", "30"]);
    let engine = [3, 1, -1, -1, -1, 8_000, 1_001, 2, 30, 2, 0, 0, 0, 0, 0, 0];
    assert_eq!(fields(&lines[1]), engine);
    // Idle, a click's times, the phase idle; gain 255, priority 0, pan 128.
    let voice = [0, 2, 40, 0, 10, 4, 0, 0, 0, 8_000, 255, 0, 128, 8_000];
    for line in &lines[2..] {
        assert_eq!(fields(line), voice);
    }
}

/// Driven by the program and driven here, an engine is in the same state.
#[test]
fn the_state_is_the_original_s() {
    let bytes = bank_bytes();
    let lines = answers(&[
        OPEN,
        &lend(),
        &set(),
        &play(1, 9),
        &fade(3),
        "200040",
        "1702FF",
        "30",
    ]);
    let mut engine = engine();
    engine.set_bank(SoundBank::over(&bytes, 8_000, COUNT));
    let spec = AdsrSpec {
        attack_ms: 2,
        decay_ms: 3,
        sustain_q8: 100,
        release_ms: 4,
    };
    engine.play_with_priority(1, spec, 9).unwrap();
    engine.crossfade_to(3, 20, spec).unwrap();
    let mut duties = [0; 64];
    engine.fill_duty_buffer(&mut duties);
    let expected: String = duties.map(|duty| format!("{duty:04X}")).concat();
    assert_eq!(lines[4], format!("0040{expected}"));
    let peeks: [&dyn Peek; 3] = [&engine, engine.voice(0).unwrap(), engine.voice(1).unwrap()];
    for (line, peek) in lines[5..].iter().zip(peeks) {
        let mut state = Vec::new();
        peek.peek(&mut state);
        assert_eq!(fields(line), state);
    }
    assert_eq!(lines.len(), 8);
}

/// 20 ms at 8,000 Hz are 160 samples: the step is 2, and 128 frames end the fade, whichever kinds they are and whatever comes between. A fade
/// that is refused leaves it, another one begins anew, a stop ends it.
#[test]
fn frames_that_a_fade_has_left() {
    let before = [OPEN, &lend(), &set(), &play(1, 9), "79", &fade(3), "79"];
    let lines = answers(&before);
    assert_eq!([&lines[3], &lines[5]], ["00", "80"]);
    let left = |records: &[&str]| last(&[&before[..], records, &["79"]].concat());
    assert_eq!(left(&["210064"]), "1C");
    assert_eq!(left(&["210064", "2B", "2C"]), "1A");
    assert_eq!(left(&["21007F"]), "01");
    assert_eq!(left(&["2A0100"]), "00");
    let others = [
        &play(1, 9),
        "15000001B8000A00",
        "1801",
        "170107",
        "1A0001",
        &set(),
    ];
    assert_eq!(left(&[&["210064"], &others[..]].concat()), "1C");
    assert_eq!(left(&["210064", &fade(2), "2B"]), "1B");
    assert_eq!(left(&["210064", &fade(1), "2B"]), "7F");
    assert_eq!(left(&["210064", "19"]), "00");
}

/// The records that print nothing, by the dump after them.
#[test]
fn calls_without_an_answer() {
    let dump = |records: &[&str]| -> Vec<Vec<i64>> {
        let lines = answers(&[&[OPEN], records, &["30"]].concat());
        assert_eq!(lines.len(), 4);
        lines[1..].iter().map(|line| fields(line)).collect()
    };
    // 440 Hz for 10 ms: 80 samples.
    for waveform in 0..3 {
        let voice = &dump(&[&format!("15000001B8000A{waveform:02X}")])[1];
        assert_eq!(voice[..6], [1, 0, 236_223_201, waveform, 80, 1]);
    }
    for waveform in 0..4 {
        let voice = &dump(&[&format!("16000001B8000A{waveform:02X}")])[1];
        assert_eq!([voice[0], voice[3], voice[4]], [2, waveform, 440]);
        assert_eq!(voice[5..8], [8_000, 80, 1]);
    }
    let silent = dump(&[]);
    let mut panned = silent.clone();
    panned[2][12] = 7;
    assert_eq!(dump(&["170107"]), panned);
    assert_eq!(dump(&["170207", "17FF07"]), silent);
    let mut quiet = silent.clone();
    quiet[0][8] = 9;
    assert_eq!(dump(&["1809"]), quiet);
    assert_eq!(dump(&["15000001B8000A00", "19"]), silent);
}

/// Each buffer of an engine that sounds, with voice 0 on the left, beside the original's.
#[test]
fn buffers_of_a_sounding_engine() {
    let sounding = [OPEN, "16000001B8000001", "170020", "220032"];
    let check = |code: &str, call: fn(&mut AudioEngine<2>) -> String| {
        let mut engine = engine();
        engine.play_polyblep(440, 0, PolyBlepWaveform::Sawtooth);
        engine.set_voice_pan(0, 0x20);
        engine.fill_pcm_i16_buffer(&mut [0; 0x32]);
        let expected = call(&mut engine);
        let record = format!("{code}0007");
        assert_eq!(last(&[&sounding[..], &[&record]].concat()), expected);
    };
    macro_rules! check {
        ($code:literal, $kind:ty, $width:literal, $fill:ident) => {
            check($code, |engine| {
                let mut buffer = [<$kind>::from_be_bytes([0xA5; size_of::<$kind>()]); 7];
                let filled = engine.$fill(&mut buffer);
                let cells = buffer.map(|cell| hex(&cell.to_be_bytes())).concat();
                assert_eq!(cells.len(), 7 * $width);
                format!("{filled:04X}{cells}")
            })
        };
    }
    check!("20", u16, 4, fill_duty_buffer);
    check!("21", i8, 2, fill_pcm_i8_buffer);
    check!("22", i16, 4, fill_pcm_i16_buffer);
    check!("23", i32, 8, fill_pcm_i32_buffer);
    check!("24", u8, 2, fill_dac_u8_buffer);
    check!("25", u16, 4, fill_dac_u12_buffer);
    check!("26", u16, 4, fill_dac_u16_buffer);
    check!("27", i16, 4, fill_stereo_i16_buffer);
    check!("28", i32, 8, fill_stereo_i32_buffer);
    check!("29", i16, 4, fill_stereo_panned_i16_buffer);
    check!("2A", i8, 2, fill_stereo_panned_i8_buffer);
    // It does sound, and not alike on both sides.
    let side_by_side = |code: &str| last(&[&sounding[..], &[code]].concat());
    assert_ne!(side_by_side("270006"), side_by_side("290006"));
}

#[test]
fn buffers() {
    let after = |record: &str| last(&[OPEN, record]);
    assert_eq!(after("200003"), "000301F401F401F4");
    assert_eq!(after("210002"), "00020000");
    assert_eq!(after("220001"), "00010000");
    assert_eq!(after("230001"), "000100000000");
    assert_eq!(after("240002"), "00028080");
    assert_eq!(after("250001"), "00010807");
    assert_eq!(after("260001"), "00018000");
    // An odd last cell of a stereo buffer is not written.
    assert_eq!(after("270003"), "000200000000A5A5");
    assert_eq!(after("280003"), "00020000000000000000A5A5A5A5");
    assert_eq!(after("290001"), "0000A5A5");
    assert_eq!(after("2A0003"), "00020000A5");
    assert_eq!(after("2B"), "0000");
    assert_eq!(after("2C"), "01F4");
    assert_eq!(after("200000"), "0000");
    assert_eq!(after("210800").len(), 4 + 2 * 2_048);
    // Document 01's three frames.
    let framelist = ["100200003E8003E800FF00", "15000003E8000000", "200003"];
    assert_eq!(last(&framelist), "000301F70213023E");
}

/// Whether the last of these records is a bad line: then nothing after it is answered.
fn bad(records: &[&str]) -> bool {
    let lines = answers(&[records, &[OPEN, "1D"]].concat());
    lines.last().unwrap() == "FFFF"
}

/// Before an engine is open, also one that was refused; cut anywhere; too long.
#[test]
fn bad_lines() {
    let (play, fade) = (play(1, 1), fade(1));
    let good = [
        "1100001F400000",
        &play,
        &fade,
        "15000001B8000002",
        "16000001B8000003",
        "170000",
        "1800",
        "19",
        "1A0001",
        "1B000000000000",
        "1C00",
        "1D",
        "200800",
        "2A0800",
        "2B",
        "2C",
        "30",
    ];
    for record in good {
        assert!(bad(&[record]), "{record}");
        assert!(bad(&["101100001F4003E800FF00", record]), "{record}");
        assert!(!bad(&[OPEN, record]), "{record}");
        for length in 1..record.len() {
            assert!(bad(&[OPEN, &record[..length]]), "{record} cut at {length}");
        }
        assert!(bad(&[OPEN, &format!("{record}00")]), "{record}00");
    }
}

#[test]
fn bytes_to_be_lent() {
    assert!(!bad(&["12", OPEN]));
    assert!(!bad(&[&format!("12{}", "AB".repeat(4_096))]));
    assert!(bad(&[&format!("12{}", "AB".repeat(4_097))]));
    assert!(bad(&["120"]));
}

/// A field that is not allowed comes before any refusal. Also codes of no record.
#[test]
fn bad_fields() {
    for record in [
        "101100001F4003E803FF00",
        "100200010002000100FF02",
        "1002000100020001FFFF01",
        "15000001B8000003",
        "16000001B8000004",
        "200801",
        "2AFFFF",
        "1E",
        "1F",
        "2D",
        "31",
    ] {
        assert!(bad(&[OPEN, record]), "{record}");
    }
}
