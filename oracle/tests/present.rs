//! The original with document 02's replacements, beside the original as it is.

mod common;

use common::*;

/// Both boxes with the same fields.
fn opens(fields: &str) -> [String; 2] {
    ["10", "70"].map(|code| format!("{code}{fields}"))
}

/// Two voices, 16,000 Hz, period 1,000, Linear, LowestPriorityOldest.
fn box_of(master: u8) -> String {
    format!("0200003E8003E800{master:02X}00")
}

/// What both boxes answer to the records after their opening, the last line of each.
fn both(fields: &str, records: &[&str]) -> [String; 2] {
    opens(fields).map(|open| last(&[&[&open[..]], records].concat()))
}

#[test]
fn a_gain_of_255_hands_through_and_the_others_are_as_before() {
    for sample in i8::MIN..=i8::MAX {
        assert_eq!(present::fixed::apply_gain_q8(sample, 255), sample);
        for gain in 0..=254 {
            let before = oracle::fixed::apply_gain_q8(sample, gain);
            assert_eq!(present::fixed::apply_gain_q8(sample, gain), before);
        }
    }
    let gains = ["827FFF", "8281FF", "827FFE", "407FFF", "4081FF", "407FFE"];
    let answers = answers(&gains);
    assert_eq!(answers, ["7F", "81", "7E", "7E", "81", "7E"]);
}

/// What is like a gain and is none: the fade's mix, the interpolation, FM's depth; and pan's gains themselves.
#[test]
fn nothing_else_is_changed() {
    for a in i8::MIN..=i8::MAX {
        for t in [0, 1, 128, 253, 254, 255] {
            for b in [-128, -1, 0, 127] {
                let before = oracle::fixed::mix_crossfade(a, b, t);
                assert_eq!(present::fixed::mix_crossfade(a, b, t), before);
                let before = oracle::fixed::lerp_i8(a, b, t);
                assert_eq!(present::fixed::lerp_i8(a, b, t), before);
            }
        }
    }
    for pan in 0..=255 {
        let before = oracle::fixed::pan_to_gains_q8(pan);
        assert_eq!(present::fixed::pan_to_gains_q8(pan), before);
    }
    for depth in [0, 72, 254, 255] {
        let mut before = oracle::synth::FmVoice::new();
        let mut now = present::synth::FmVoice::new();
        before.start(440, 150, depth, 8_000);
        now.start(440, 150, depth, 8_000);
        assert!((0..10_000).all(|_| before.next_sample() == now.next_sample()));
    }
}

/// Document 02: `framelist` prints 01FF, 021B, 0246; document 01's box is as before.
#[test]
fn framelist() {
    let tone = "15000003E8000000";
    let duties = both(&box_of(255), &[tone, "200003"]);
    assert_eq!(duties, ["000301F70213023E", "000301FF021B0246"]);
}

/// A bank of one tone without end, of that gain: 1,000 Hz, of which a turn has 16 samples.
fn bank(gain: u8) -> [String; 2] {
    let mut bytes = vec![0; 10];
    bytes.extend([1, 0, 0, 0, gain, 0, 0xE8, 3, 0, 0, 0, 0, 0, 0, 0, 0]);
    [format!("12{}", hex(&bytes)), "1100003E800001".to_string()]
}

/// The frames of one voice in both boxes: an envelope that is at its sustain level from the first frame on, mono or stereo.
fn frames(sustain: u8, gain: u8, master: u8, pan: u8, record: &str) -> [Vec<i8>; 2] {
    let [lend, set] = bank(gain);
    let play = format!("13000100000000{sustain:02X}000009");
    let pan = format!("1700{pan:02X}");
    both(&box_of(master), &[&lend, &set, &play, &pan, record]).map(|line| {
        let cells = line.as_bytes()[4..].chunks(2);
        let cell = |digits| u8::from_str_radix(str::from_utf8(digits).unwrap(), 16);
        cells.map(|digits| cell(digits).unwrap() as i8).collect()
    })
}

const MONO: &str = "210010";
const STEREO: &str = "2A0020";

/// A turn of the source alone.
fn turn() -> [i8; 16] {
    let mut tone = oracle::source::VoiceSource::idle();
    tone.start_tone(1_000, 0, oracle::synth::Waveform::Sine, 16_000);
    [0; 16].map(|_| tone.next_raw_sample().unwrap())
}

/// What so many gains of 255 do in document 01: each takes 1 off a positive sample and leaves the others.
fn less(samples: &[i8], steps: i8) -> Vec<i8> {
    let taken = |sample: &i8| {
        if *sample > 0 {
            (sample - steps).max(0)
        } else {
            *sample
        }
    };
    samples.iter().map(taken).collect()
}

/// With all gains at 255 one voice hands the source's sample to the limiter, which leaves a sine as it is, and the master hands it on.
#[test]
fn full_gains_hand_the_sample_through() {
    let source = turn();
    assert_eq!(source.iter().max(), Some(&63));
    let [before, now] = frames(255, 255, 255, 128, MONO);
    assert_eq!(now, source);
    assert_eq!(before, less(&source, 3));
    let [before, now] = frames(255, 255, 255, 128, STEREO);
    let pairs = |samples: &[i8]| samples.iter().flat_map(|s| [*s; 2]).collect::<Vec<i8>>();
    assert_eq!(now, pairs(&source));
    assert_eq!(before, pairs(&less(&source, 4)));
}

/// The loudest sample, a square of 0 Hz at 127, at the end of an attack of two frames: document 01's gains make 126 and 125 of it, the limiter 110
/// and the master 109. Now the limiter gets 127, and its 111 stays. The frame before has level 127.
#[test]
fn the_loudest_sample() {
    let records = ["1500000000000000", "210002"];
    let boxes = both("01000003E803E800FF00", &records);
    assert_eq!(boxes, ["00023D6D", "00023F6F"]);
    // By the gains alone, one after the other.
    assert_eq!(answers(&["407FFF", "407EFF", "407DFF"]), ["7E", "7D", "7C"]);
}

/// 254 at one place: there it is as before, and the other three hand on.
#[test]
fn a_gain_of_254_is_as_before_at_each_place() {
    let lowered = turn().map(|sample| oracle::fixed::apply_gain_q8(sample, 254));
    for (sustain, gain, master) in [(254, 255, 255), (255, 254, 255), (255, 255, 254)] {
        let [_, now] = frames(sustain, gain, master, 128, MONO);
        assert_eq!(now, lowered, "{sustain} {gain} {master}");
        let [_, now] = frames(sustain, gain, master, 128, STEREO);
        let left: Vec<i8> = now.iter().step_by(2).copied().collect();
        assert_eq!(left, lowered, "{sustain} {gain} {master}");
    }
    // With 254 everywhere the two are the same, and in stereo but for the side whose pan gain is 255: pan 127 has 255 and 253.
    let [before, now] = frames(254, 254, 254, 127, MONO);
    assert_eq!(before, now);
    let [before, now] = frames(254, 254, 254, 127, STEREO);
    let side = |frames: &[i8], from| frames.iter().skip(from).step_by(2).copied().collect();
    let [left, right]: [Vec<i8>; 2] = [side(&now, 0), side(&now, 1)];
    assert_ne!(side(&before, 0), left);
    assert_eq!(side(&before, 1), right);
}

/// A fade's mix at t = 254 is document 01's also between voices whose gains are all 255.
#[test]
fn a_fade_mixes_as_before() {
    let [lend, set] = bank(255);
    let play = "13000100000000FF000009";
    // 255 samples or more: each frame is one step.
    let fade = "140001FFFF00000000FF0000";
    let records = [&lend, &set, play, fade, "2100FE"];
    let [_, now] = both(&box_of(255), &records);
    // Voice 0, released at once, still gives samples, all of them 0.
    let mixed = oracle::fixed::mix_crossfade(0, turn()[253 % 16], 254);
    assert_ne!(mixed, turn()[253 % 16]);
    assert_eq!(now[now.len() - 2..], format!("{mixed:02X}"));
}

#[test]
fn the_box_opened_last_has_its_rules() {
    let [first, second] = opens(&box_of(255));
    let tone = ["15000003E8000000", "200003"];
    let (old, new) = ("000301F70213023E", "000301FF021B0246");
    let script = [
        &first, tone[0], tone[1], &second, tone[0], tone[1], &first, tone[0], tone[1],
    ];
    assert_eq!(answers(&script), ["00", old, "00", new, "00", old]);
    // One that is refused leaves the old one, of either kind, with its rules.
    let refused = ["10", "70"].map(|code| format!("{code}1100003E8003E800FF00"));
    let script = [
        &first,
        &refused[1],
        tone[0],
        tone[1],
        &second,
        &refused[0],
        tone[0],
        tone[1],
    ];
    assert_eq!(answers(&script), ["00", "01", old, "00", "01", new]);
}

/// Answers, refusals and state of calls that apply no gain, and meet no payload beyond the bank, are the same in both.
#[test]
fn calls_without_gains_are_the_same() {
    let (lend, set) = (lend(), set());
    let mut records = vec![lend, "30".into(), play(1, 3), set, "30".into()];
    records.extend([
        play(1, 9),
        play(3, 9),
        play(1, 9),
        play(4, 10),
        fade(100),
        fade(3),
    ]);
    records.extend(
        [
            "17010A",
            "1880",
            "30",
            "1A0003",
            "1B0000000A0003",
            "1C05",
            "1D",
        ]
        .map(String::from),
    );
    records.extend(
        [
            "210020",
            "30",
            "79",
            "62000100020003640004",
            "6301",
            "64",
            "65",
            "6901",
        ]
        .map(String::from),
    );
    records.extend(["19", "30", "11000100020000", "12", "1A0003"].map(String::from));
    let [first, second] = opens(&OPEN[2..]).map(|open| {
        let mut script = vec![open.as_str()];
        script.extend(records.iter().map(String::as_str));
        answers(&script)
    });
    let told = |answers: &[String]| -> Vec<String> {
        let frames = |line: &&String| line.starts_with("0020") && line.len() == 68;
        answers
            .iter()
            .filter(|line| !frames(line))
            .cloned()
            .collect()
    };
    assert_eq!(told(&first), told(&second));
    assert_eq!(first.len(), told(&first).len() + 1);
}

#[test]
fn bad_lines() {
    for record in [
        "70",
        "700200003E8003E800FF",
        "700200003E8003E800FF0000",
        "700200003E8003E803FF00",
        "700200003E8003E800FF02",
        "701100003E8000000300FF",
        "827F",
        "827FFFFF",
        "71",
        "7300010014000000000A0000",
        "7A",
    ] {
        assert_eq!(last(&[record, "4500"]), "FFFF", "{record}");
    }
}
