//! The papers' checked examples and the refusals, through the library.

use birchjack::{
    Bank, DutyMode, Envelope, Leaving, NewEntry, Played, Player, Policy, PolyBlep, Refusal,
    Request, Waited, Waveform, bank_of, write_bank,
};

const CLICK: Envelope = Envelope {
    attack_ms: 2,
    decay_ms: 40,
    sustain_q8: 0,
    release_ms: 10,
};

/// Ten bytes, an entry of id 7 (sine tone, gain 255, 440 Hz, no end) with a payload of two bytes, and the payload.
const BELL: [u8; 28] = [
    0, 0, 0, 0, 0, 0, 0, 0, 0, 0, // not read
    7, 0, 0, 0, 255, 0, 184, 1, 0, 0, 26, 0, 0, 0, 2, 0, // the entry
    1, 2, // its payload
];

fn bell() -> Bank<'static> {
    Bank {
        bytes: &BELL,
        sample_rate_hz: 8000,
        effect_count: 1,
    }
}

fn ring(priority: u8) -> Request {
    Request {
        id: 7,
        envelope: CLICK,
        priority,
    }
}

#[test]
fn numbers() {
    assert_eq!([0, 64, 192, 255].map(birchjack::sine), [0, 63, -63, 0]);
    assert_eq!(birchjack::phase_increment(1000, 8000), 536_870_912);
    assert_eq!(birchjack::phase_increment(1000, 0), 0);
    // 255 hands the sample through
    assert_eq!([127, -127].map(|s| birchjack::gain(s, 255)), [127, -127]);
    assert_eq!([127, -127].map(|s| birchjack::gain(s, 254)), [126, -127]);
    assert_eq!(birchjack::lerp(-128, 127, 128), -1);
    assert_eq!(
        [0, 128, 129].map(birchjack::pan_gains),
        [(255, 0), (255, 255), (252, 255)]
    );
}

#[test]
fn numbers_that_may_be_refused() {
    assert_eq!(
        [96, 97, 127, -128].map(birchjack::limit),
        [Ok(96), Ok(96), Ok(111), Ok(-112)]
    );
    assert_eq!(
        [-2049, 2033].map(birchjack::limit),
        [Err(Refusal::BadSum); 2]
    );
    assert!(birchjack::limit(-2048).is_ok() && birchjack::limit(2032).is_ok());
    assert_eq!(
        [127, 0, -128].map(|s| birchjack::duty_of(s, 1000)),
        [Ok(999), Ok(500), Ok(1)]
    );
    assert_eq!(birchjack::duty_of(100, 2), Ok(1));
    assert_eq!(birchjack::duty_of(0, 1), Err(Refusal::BadPeriod));
    assert_eq!(birchjack::fade_step(0, 8000), 255);
    assert_eq!(birchjack::fade_step(10, 8000), 4);
    // 65,535 ms at 65,538 Hz: the product wraps to 65,534, which is 65 samples
    assert_eq!(birchjack::fade_step(65_535, 65_538), 4);
}

#[test]
fn lengths_with_what_is_left_over() {
    use birchjack::lengths::{Length, Total, carrying, length, total};
    let of = |samples, remainder| Ok(Length { samples, remainder });
    let whole = |samples, remainder| Ok(Total { samples, remainder });
    assert_eq!(length(3_019, 22_050), of(66_568, 950));
    assert_eq!(carrying(3_019, 22_050, 950), of(66_569, 900));
    assert_eq!(carrying(3_019, 22_050, 0), length(3_019, 22_050));
    assert_eq!(length(0, 0), of(0, 0));
    // the largest product is 2^32 - 1, and with the largest remainder the sum stays below 2^33
    assert_eq!(length(65_535, 65_537), of(4_294_967, 295));
    assert_eq!(carrying(65_535, 65_537, u32::MAX), of(8_589_934, 590));
    for rate in [65_538, u32::MAX] {
        assert_eq!(length(1, rate), Err(Refusal::BadRate));
        assert_eq!(carrying(1, rate, 1), Err(Refusal::BadRate));
        assert_eq!(total(&[1], rate), Err(Refusal::BadRate));
    }

    // forty lengths in turn are the total, at every place
    let day: Vec<u16> = (1..=40).map(|k| 977 * k + 3_019).collect();
    let (mut samples, mut remainder) = (0, 0);
    for (place, ms) in day.iter().enumerate() {
        let given = carrying(*ms, 22_050, remainder).unwrap();
        assert!(given.remainder < 1_000);
        samples += given.samples as u64;
        remainder = given.remainder;
        let exact: u64 = day[..=place].iter().map(|ms| *ms as u64 * 22_050).sum();
        assert_eq!((samples, remainder as u64), (exact / 1_000, exact % 1_000));
        assert_eq!(
            total(&day[..=place], 22_050),
            whole(samples, remainder as u64)
        );
    }
    assert_eq!(total(&[], 22_050), whole(0, 0));
}

/// All lists of so many requests, as priorities in turn.
fn lists(priorities: u8, requests: u8) -> Vec<Vec<u8>> {
    (0..requests).fold(vec![vec![]], |shorter, _| {
        let longer = |list: &Vec<u8>, priority| [&list[..], &[priority]].concat();
        let each = |list: Vec<u8>| (0..priorities).map(move |p| longer(&list, p));
        shorter.into_iter().flat_map(each).collect()
    })
}

#[test]
fn how_often_a_signal_would_be_turned_away() {
    use birchjack::planning::{Counts, turned_away};
    let of = |refused, accepted| Ok(Counts { refused, accepted });
    // no voice refuses all; fewer requests than voices refuse none
    assert_eq!(turned_away(0, 4, 8, 3), of(65_536, 0));
    assert_eq!(turned_away(0, 1, 0, 0), of(1, 0));
    assert_eq!(turned_away(16, 4, 8, 0), of(0, 65_536));
    assert_eq!(turned_away(3, 4, 2, 0), of(0, 16));
    // priority 0 is refused by every full box, the highest only by one that is full of its like
    assert_eq!(turned_away(8, 4, 8, 0), of(65_536, 0));
    assert_eq!(turned_away(8, 4, 8, 3), of(1, 65_535));
    for (voices, priorities, requests, priority) in
        (0..=16u8).flat_map(|n| (1..=4).map(move |k| (n, k, 8 - n % 3, n % k)))
    {
        let all = u32::from(priorities).pow(u32::from(requests));
        let counts = turned_away(voices, priorities, requests, priority).unwrap();
        assert_eq!(counts.refused + counts.accepted, all);
    }

    let refused = Err(Refusal::NotCounted);
    for (voices, priorities, requests, priority) in [
        (17, 4, 8, 0),
        (255, 4, 8, 0),
        (2, 0, 8, 0),
        (2, 5, 8, 0),
        (2, 255, 8, 0),
        (2, 4, 9, 0),
        (2, 4, 255, 0),
        (2, 4, 8, 4),
        (2, 1, 0, 1),
        (255, 255, 255, 255),
    ] {
        let counts = turned_away(voices, priorities, requests, priority);
        assert_eq!(counts, refused);
    }
}

/// Beside requests that are played: every list of up to four, on boxes of up to five voices.
#[test]
fn what_trying_every_list_gives() {
    use birchjack::planning::{Counts, turned_away};
    for voices in 0..=5u8 {
        let player = Player {
            voices: voices.into(),
            ..player()
        };
        let is_refused = |list: &[u8], priority| {
            let asked: Vec<Request> = [list, &[priority]].concat().into_iter().map(ring).collect();
            player.play(&asked).unwrap().outcomes.last() == Some(&Err(Refusal::VoiceBusy))
        };
        for (priorities, requests) in (1..=3).flat_map(|k| (0..=4).map(move |n| (k, n))) {
            let tried = lists(priorities, requests);
            for priority in 0..priorities {
                let refused = tried.iter().filter(|l| is_refused(l, priority)).count() as u32;
                let accepted = tried.len() as u32 - refused;
                assert_eq!(
                    turned_away(voices, priorities, requests, priority),
                    Ok(Counts { refused, accepted })
                );
            }
        }
    }
}

#[test]
fn the_evacuation_pattern() {
    use birchjack::evacuation::{cycle, fill, reads, sounds};
    assert_eq!(cycle(20), Ok(80));
    assert_eq!(cycle(65_537), Ok(262_145));
    assert_eq!(
        [0, 9, 10, 49, 79, 80].map(|n| sounds(20, n)),
        [true, true, false, true, false, true].map(Ok)
    );
    for rate in [0, 19] {
        assert_eq!(cycle(rate), Err(Refusal::LowRate));
        assert_eq!(reads(rate, &[]), Err(Refusal::LowRate));
    }
    for rate in [65_538, u32::MAX] {
        assert_eq!(cycle(rate), Err(Refusal::BadRate));
        assert_eq!(reads(rate, &[]), Err(Refusal::BadRate));
    }

    // two cycles at once are two cycles in parts, and are read back
    let mut whole = [9; 160];
    assert_eq!(fill(20, 80, &mut whole), Ok(()));
    let (mut first, mut second) = ([9; 37], [9; 123]);
    assert_eq!(fill(20, 0, &mut first), Ok(()));
    assert_eq!(fill(20, 37, &mut second), Ok(()));
    assert_eq!([&first[..], &second[..]].concat(), whole);
    assert_eq!(reads(20, &whole), Ok(true));
    assert_eq!(reads(20, &whole[..80]), Ok(true));
    for bad in [&whole[..0], &whole[..1], &whole[..50], &whole[1..81]] {
        assert_eq!(reads(20, bad), Ok(false));
    }
    let mut above = whole;
    above[3] = 2;
    assert_eq!(reads(20, &above), Ok(false));

    // a run goes on past the last 64-bit count: 2^64 - 1 is 15 modulo 80
    let mut last = [9; 80];
    assert_eq!(fill(20, u64::MAX, &mut last), Ok(()));
    assert_eq!(last, whole[15..95]);
    assert_eq!(fill(19, 0, &mut last), Err(Refusal::LowRate));
    assert_eq!(last, whole[15..95]);
    assert_eq!(sounds(20, u64::MAX), Ok(false));
    assert_eq!(sounds(20, u64::MAX - 6), Ok(true));

    // a million bytes are 12,500 cycles; the last pause may be three samples shorter
    let mut million = vec![9; 1_000_000];
    assert_eq!(fill(20, 0, &mut million), Ok(()));
    assert_eq!(reads(20, &million), Ok(true));
    assert_eq!(reads(20, &million[..999_997]), Ok(true));
    assert_eq!(reads(20, &million[..999_996]), Ok(false));
    million[999_999] = 2;
    assert_eq!(reads(20, &million), Ok(false));
    assert_eq!(reads(8_000, &vec![1; 1_000_000]), Ok(false));
}

/// Beside a cycle that is laid out here: from the start of its fourth turn two whole ones and a piece.
#[test]
fn the_evacuation_pattern_at_many_rates() {
    use birchjack::evacuation::{cycle, fill, reads, sounds};
    for rate in [
        20, 21, 22, 33, 100, 999, 1_000, 1_001, 8_000, 22_050, 65_537,
    ] {
        let lengths = [500, 500, 500, 500, 500, 1_500].map(|ms| ms * rate as usize / 1_000);
        let phases = lengths.iter().enumerate();
        let whole: Vec<u8> = phases
            .flat_map(|(place, length)| vec![1 - place as u8 % 2; *length])
            .collect();
        assert_eq!(cycle(rate), Ok(whole.len() as u32));

        let start = 3 * whole.len() as u64;
        let mut cells = vec![9; 2 * whole.len() + 7];
        assert_eq!(fill(rate, start, &mut cells), Ok(()));
        assert_eq!(cells, [&whole[..], &whole, &whole[..7]].concat());
        for place in (0..cells.len()).step_by(whole.len() / 71) {
            let sample = start + place as u64;
            assert_eq!(sounds(rate, sample), Ok(cells[place] == 1));
        }
        assert_eq!(reads(rate, &cells[..2 * whole.len()]), Ok(true));
        assert_eq!(reads(rate, &cells), Ok(false));
    }
}

#[test]
fn an_envelope_alone() {
    let e = Envelope {
        attack_ms: 4,
        decay_ms: 4,
        sustain_q8: 0,
        release_ms: 4,
    };
    let (mut held, mut left) = ([9; 8], [9; 3]);
    assert_eq!(e.levels(1000, &mut held, &mut left), Ok(()));
    assert_eq!((held, left), ([63, 159, 231, 255, 192, 96, 24, 0], [0; 3]));
    let (mut held, mut left) = ([9; 4], [9; 4]);
    assert_eq!(e.levels(1000, &mut held, &mut left), Ok(()));
    assert_eq!((held, left), ([63, 159, 231, 255], [192, 96, 24, 0]));
    let mut held = [9; 2];
    assert_eq!(e.levels(65_538, &mut held, &mut []), Err(Refusal::BadRate));
    assert_eq!(held, [9; 2]);
}

fn new_entry(id: u16, payload: &[u8]) -> NewEntry<'_> {
    NewEntry {
        id,
        kind: 3,
        flags: 1,
        default_gain_q8: 200,
        param0: 440,
        param1: 150,
        payload,
    }
}

#[test]
fn a_bank_is_written() {
    let header = [9; 10];
    let given = [
        (900, &[1, 2, 3][..]),
        (7, &[]),
        (65_535, &[4]),
        (0, &[5, 6]),
    ];
    let entries = given.map(|(id, payload)| new_entry(id, payload));
    let bytes = bank_of(&header, &entries).unwrap();
    assert_eq!(bytes[..10], header);
    assert_eq!(bytes[74..], [5, 6, 1, 2, 3, 4]);
    let bank = Bank {
        bytes: &bytes,
        sample_rate_hz: 65_537,
        effect_count: 4,
    };
    for (id, payload) in given {
        let e = bank.find(id).unwrap();
        assert_eq!((e.kind, e.flags, e.default_gain_q8), (3, 1, 200));
        assert_eq!((e.param0, e.param1), (440, 150));
        assert_eq!(bank.payload(e.offset, e.len), Ok(payload));
    }
    assert_eq!(bank.find(8), Err(Refusal::EffectNotFound));
    for turned in [[3, 2, 1, 0], [1, 0, 3, 2], [2, 3, 0, 1]] {
        assert_eq!(
            bank_of(&header, &turned.map(|at| entries[at])),
            Ok(bytes.clone())
        );
    }

    // a byte too short, and two behind the bank
    let mut cells = [0xA5; 82];
    assert_eq!(
        write_bank(&header, &entries, &mut cells[..79]),
        Err(Refusal::ShortBuffer)
    );
    assert_eq!(cells, [0xA5; 82]);
    assert_eq!(write_bank(&header, &entries, &mut cells), Ok(80));
    assert_eq!(cells[..80], bytes);
    assert_eq!(cells[80..], [0xA5; 2]);
}

#[test]
fn what_makes_no_bank() {
    let header = [0; 10];
    let refused = Err(Refusal::BadEntries);
    let longest = vec![7; 65_536];
    let whole = bank_of(&header, &[new_entry(3, &longest[1..])]).unwrap();
    assert_eq!(whole[26..], longest[1..]);
    assert_eq!(bank_of(&header, &[new_entry(3, &longest)]), refused);
    assert_eq!(
        bank_of(&header, &[new_entry(3, &[]), new_entry(3, &[1])]),
        refused
    );
    let odd = NewEntry {
        kind: 6,
        ..new_entry(3, &[])
    };
    assert_eq!(bank_of(&header, &[odd]), refused);
    let many: Vec<NewEntry> = (0..65)
        .rev()
        .map(|id| new_entry(id, &longest[1..]))
        .collect();
    assert_eq!(bank_of(&header, &many), refused);
    assert_eq!(
        bank_of(&header, &many[..64]).unwrap().len(),
        10 + 64 * (16 + 65_535)
    );
    // 13 is looked for first
    assert_eq!(
        write_bank(&header, &many, &mut []),
        refused.map(|_: Vec<u8>| 0)
    );
    assert_eq!(write_bank(&header, &[], &mut []), Err(Refusal::ShortBuffer));
}

#[test]
fn a_bank() {
    let e = bell().find(7).unwrap();
    assert_eq!(
        (e.id, e.kind, e.flags, e.default_gain_q8, e.param0),
        (7, 0, 0, 255, 440)
    );
    assert_eq!((e.param1, e.offset, e.len), (0, 26, 2));
    assert_eq!(bell().find(8), Err(Refusal::EffectNotFound));
    assert_eq!(bell().payload_of(7), Ok(&BELL[26..]));
    assert_eq!(bell().payload_of(8), Err(Refusal::EffectNotFound));
    assert_eq!(bell().payload(10, 3), Ok(&BELL[10..13]));
    assert_eq!(bell().payload(28, 0), Ok(&BELL[28..]));
    assert_eq!(bell().payload(27, 2), Err(Refusal::BadLength));
    assert_eq!(bell().payload(28, 1), Err(Refusal::BadLength));
    assert_eq!(bell().payload(29, 0), Err(Refusal::BadOffset));
    assert_eq!(bell().payload(u32::MAX, u32::MAX), Err(Refusal::BadOffset));
    let fast = Bank {
        sample_rate_hz: 65_538,
        ..bell()
    };
    assert_eq!(fast.find(7), Err(Refusal::BadRate));
    let short = Bank {
        bytes: &BELL[..25],
        ..bell()
    };
    assert_eq!(short.find(7), Err(Refusal::TruncatedBank));
    let cut = Bank {
        bytes: &BELL[..27],
        ..bell()
    };
    assert_eq!(cut.payload_of(7), Err(Refusal::BadLength));
    let mut odd = BELL;
    odd[12] = 6;
    let odd = Bank {
        bytes: &odd,
        ..bell()
    };
    assert_eq!(odd.find(7), Err(Refusal::InvalidEffectKind));
}

fn player() -> Player<'static> {
    Player {
        voices: 2,
        policy: Policy::LowestPriorityOldest,
        master_gain_q8: 255,
        bank: bell(),
        polyblep: None,
    }
}

#[test]
fn requests_and_their_outcomes() {
    let played = |outcomes: &[_], audible| {
        Ok(Played {
            outcomes: outcomes.to_vec(),
            audible,
        })
    };
    let busy = Err(Refusal::VoiceBusy);
    assert_eq!(player().play(&[]), played(&[], 0));
    assert_eq!(player().play(&[ring(3)]), played(&[Ok(0)], 1));
    // the third takes the voice of lowest priority, the fourth finds none below it
    let four = [3, 5, 6, 5].map(ring);
    assert_eq!(
        player().play(&four),
        played(&[Ok(0), Ok(1), Ok(0), busy], 2)
    );
    let free_only = Player {
        policy: Policy::FreeChannelOnly,
        ..player()
    };
    assert_eq!(
        free_only.play(&four),
        played(&[Ok(0), Ok(1), busy, busy], 2)
    );
    let unknown = Request { id: 8, ..ring(3) };
    assert_eq!(
        player().play(&[unknown, ring(3)]),
        played(&[Err(Refusal::EffectNotFound), Ok(0)], 1)
    );
}

#[test]
fn requests_and_frames() {
    let mut mono = [0x55; 33];
    assert_eq!(player().pcm_i16(&[ring(3)], &mut mono), Ok(()));
    assert!(mono.iter().any(|s| *s != 0) && mono.iter().all(|s| s % 256 == 0));
    let mut duty = [0; 33];
    for period in [1000, 2, 65_535] {
        assert_eq!(
            player().duty(period, DutyMode::Linear, &[ring(3)], &mut duty),
            Ok(())
        );
        for (d, s) in duty.iter().zip(mono) {
            assert_eq!(Ok(*d), birchjack::duty_of((s / 256) as i8, period));
        }
    }
    let [linear, first, second] = [
        DutyMode::Linear,
        DutyMode::SigmaDelta,
        DutyMode::SigmaDelta2ndOrder,
    ]
    .map(|mode| {
        let mut out = [0; 400];
        player().duty(1000, mode, &[ring(3)], &mut out).unwrap();
        out
    });
    assert!(linear != first && first != second && second != linear);

    let mute = Player {
        master_gain_q8: 0,
        ..player()
    };
    let mut silence = [0x55; 33];
    assert_eq!(mute.pcm_i16(&[], &mut silence), Ok(()));
    assert_eq!(silence, [0; 33]);
    let saw = Player {
        polyblep: Some(PolyBlep {
            waveform: Waveform::Sawtooth,
            freq_hz: 440,
            duration_ms: 60_000,
        }),
        ..player()
    };
    let mut with = [0; 33];
    assert_eq!(saw.pcm_i16(&[ring(3)], &mut with), Ok(()));
    assert_ne!(with, mono);
}

/// A ring in a box of so many voices, then these left, then so many frames.
fn waited(voices: usize, left: &[Leaving], frames: usize) -> (Waited, Vec<i16>) {
    let mut out = vec![0x55; frames];
    let player = Player { voices, ..player() };
    let told = player.waiting_pcm_i16(&[ring(3)], left, &mut out).unwrap();
    (told, out)
}

fn heard(voices: usize, requests: &[Request], frames: usize) -> Vec<i16> {
    let mut out = vec![0x55; frames];
    let player = Player { voices, ..player() };
    player.pcm_i16(requests, &mut out).unwrap();
    out
}

#[test]
fn requests_that_wait() {
    let unknown = Request { id: 8, ..ring(9) };
    let left = [
        (100, ring(4)),
        (200, ring(5)),
        (300, unknown),
        (200, ring(7)),
    ]
    .map(|(label, request)| Leaving { label, request });
    let told = |labels: &[u16], dropped| Waited {
        outcomes: vec![Ok(()), Ok(()), Ok(()), Err(Refusal::LabelWaiting)],
        labels: labels.to_vec(),
        dropped,
    };
    let gone = Some((Refusal::EffectNotFound, 300));
    // where no voice is free all wait and the sound is as before; no frames try nothing
    let all = told(&[300, 200, 100], None);
    assert_eq!(
        waited(1, &left, 64),
        (all.clone(), heard(1, &[ring(3)], 64))
    );
    assert_eq!(waited(2, &left, 0), (all, vec![]));
    // the free voice goes to the highest priority whose entry is there
    let both = heard(2, &[ring(3), ring(5)], 64);
    assert_eq!(waited(2, &left, 64), (told(&[100], gone), both));
    let three = heard(3, &[ring(3), ring(5), ring(4)], 64);
    assert_eq!(waited(3, &left, 64), (told(&[], gone), three));
}

#[test]
fn up_to_32_wait() {
    // the last again under a label that waits: 18 is looked for before 17
    let labels = (500..533).chain([500]);
    let left: Vec<Leaving> = labels
        .map(|label| Leaving {
            label,
            request: ring(4),
        })
        .collect();
    let (told, _) = waited(1, &left, 1);
    assert_eq!(told.outcomes[..32], [Ok(()); 32]);
    let refused = [Refusal::LineFull, Refusal::LabelWaiting].map(Err);
    assert_eq!(told.outcomes[32..], refused);
    assert_eq!(told.labels, (500..532).collect::<Vec<u16>>());
    assert_eq!(told.dropped, None);
}

#[test]
fn pans() {
    let sides = |pans: &[u8]| {
        let mut out = [0x55; 33];
        assert_eq!(player().stereo_i16(pans, &[ring(3)], &mut out), Ok(()));
        // an odd last cell is not written
        assert_eq!(out[32], 0x55);
        let side = |at| out[..32].iter().skip(at).step_by(2).any(|s| *s != 0);
        (side(0), side(1))
    };
    // the bell sounds in voice 0
    assert_eq!(sides(&[]), (true, true));
    assert_eq!(sides(&[0]), (true, false));
    assert_eq!(sides(&[255, 0]), (false, true));
    assert_eq!(sides(&[128, 0, 0, 0]), (true, true));
}

fn digits(bytes: &[u8]) -> String {
    bytes.iter().map(|b| format!("{b:02X}")).collect()
}

/// By a script, whose box may fade: at the fade's end voice 1 falls free.
#[test]
fn the_next_in_line_goes_in_when_a_voice_falls_free() {
    let (bank, envelope) = (digits(&BELL), "0002 0028 00 000A");
    // two voices, the bank, two rings, two left under 100 and 200, four cells, who waits, a fade of 10 ms, 256 cells, who waits
    let script = format!(
        "70 02 00001F40 03E8 00 FF 00\n12 {bank}\n11 00001F40 0001\n13 0007 {envelope} 03\n13 0007 {envelope} 03\n\
         74 0064 00 0007 {envelope} 04\n74 00C8 00 0007 {envelope} 05\n29 0004\n76\n14 0007 000A {envelope}\n29 0100\n76\n"
    );
    let (text, good) = birchjack::answers_of(script.replace(' ', "").as_bytes());
    assert!(good);
    let lines: Vec<&str> = str::from_utf8(&text).unwrap().lines().collect();
    assert_eq!((lines[7], lines[10]), ("0200C80064", "010064"));
}

/// The frames are those of a script that opens its box by record 70; by record 10 they are others.
#[test]
fn present_rules() {
    let bank = digits(&BELL);
    let sound = |record| {
        // two voices, the bank, the ring, voice 0 more to the left, 64 stereo cells
        let script = format!(
            "{record} 02 00001F40 03E8 00 FF 00\n12 {bank}\n11 00001F40 0001\n13 0007 0002 0028 00 000A 03\n17 00 1E\n29 0040\n"
        );
        birchjack::sound_of(script.replace(' ', "").as_bytes())
    };
    let mut cells = [0; 64];
    assert_eq!(player().stereo_i16(&[0x1E], &[ring(3)], &mut cells), Ok(()));
    assert_eq!(sound("70"), (cells.to_vec(), true));
    assert_ne!(sound("10"), (cells.to_vec(), true));
}

#[test]
fn players_that_are_refused() {
    let crowd = Player {
        voices: 17,
        ..player()
    };
    let fast = Player {
        bank: Bank {
            sample_rate_hz: 65_538,
            ..bell()
        },
        ..player()
    };
    let short = Player {
        bank: Bank {
            bytes: &BELL[..25],
            ..bell()
        },
        ..player()
    };
    for (player, refusal) in [
        (crowd, Refusal::VoiceCount),
        (fast, Refusal::BadRate),
        (short, Refusal::TruncatedBank),
    ] {
        let (mut cells, mut duties) = ([0x55; 3], [0x55; 3]);
        assert_eq!(player.play(&[ring(3)]), Err(refusal));
        assert_eq!(player.pcm_i16(&[ring(3)], &mut cells), Err(refusal));
        let told = player.waiting_pcm_i16(&[ring(3)], &[], &mut cells);
        assert_eq!(told, Err(refusal));
        assert_eq!(player.stereo_i16(&[0], &[], &mut cells), Err(refusal));
        assert_eq!(
            player.duty(1000, DutyMode::Linear, &[], &mut duties),
            Err(refusal)
        );
        assert_eq!((cells, duties), ([0x55; 3], [0x55; 3]));
    }
    let mut duties = [0x55; 3];
    assert_eq!(
        player().duty(1, DutyMode::Linear, &[], &mut duties),
        Err(Refusal::BadPeriod)
    );
    assert_eq!(duties, [0x55; 3]);
}

/// 20 and 21 belong to a request that has not landed.
#[test]
fn refusals_have_the_papers_numbers() {
    let numbers: Vec<u8> = Refusal::ALL.map(Refusal::number).to_vec();
    assert_eq!(numbers, (1..=19).chain([22]).collect::<Vec<u8>>());
    assert!(Refusal::ALL.iter().all(|r| !r.to_string().is_empty()));
}
