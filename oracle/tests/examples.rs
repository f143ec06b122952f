//! Document 01's examples, asked of the Rust original, and the state that it is read from. Run with --release: the
//! reference is the build whose sums wrap.

use oracle::Peek;
use oracle::bank::{BANK_BUILD_CAP, BankBuilder, SoundBank};
use oracle::config::AudioConfig;
use oracle::engine::AudioEngine;
use oracle::envelope::{Adsr, AdsrSpec};
use oracle::fixed;
use oracle::output::{self, DutyMode};
use oracle::synth::{FmVoice, PolyBlepVoice, PolyBlepWaveform, Waveform};
use oracle::tier::EffectKind;

fn state_of(value: &impl Peek) -> Vec<i64> {
    let mut state = Vec::new();
    value.peek(&mut state);
    state
}

fn engine() -> AudioEngine<'static, 2> {
    AudioEngine::new(AudioConfig::new(16_000, 1_000, DutyMode::Linear))
}

#[test]
fn single_steps() {
    assert_eq!([0, 64, 192, 255].map(fixed::sin_table), [0, 63, -63, 0]);
    assert_eq!(fixed::hz_to_phase_inc(1_000, 8_000), 536_870_912);
    assert_eq!(
        [127, -127].map(|s| fixed::apply_gain_q8(s, 255)),
        [126, -127]
    );
    assert_eq!(
        [96, 97, 127, -128].map(output::limit_bus),
        [96, 96, 111, -112]
    );
    let pans = [0, 128, 129].map(fixed::pan_to_gains_q8);
    assert_eq!(pans, [(255, 0), (255, 255), (252, 255)]);
    assert_eq!(
        [127, 0, -128].map(|s| output::pcm_to_duty(s, 1_000)),
        [999, 500, 1]
    );
    assert!((-128..=127).all(|s| output::pcm_to_duty(s, 2) == 1));
}

#[test]
fn envelope() {
    let spec = AdsrSpec {
        attack_ms: 4,
        decay_ms: 4,
        sustain_q8: 0,
        release_ms: 0,
    };
    let mut envelope = Adsr::new(spec, 1_000);
    envelope.trigger();
    let levels = [0; 8].map(|_| {
        envelope.tick();
        envelope.level_q8()
    });
    assert_eq!(levels, [63, 159, 231, 255, 192, 96, 24, 0]);
    assert_eq!(state_of(&envelope), [4, 4, 0, 0, 2, 0, 0, 4, 1_000]);
}

#[test]
fn first_samples() {
    let mut fm = FmVoice::new();
    fm.start(440, 200, 72, 48_000);
    assert_eq!(fm.next_sample(), Some(78));
    let first = |waveform| {
        let mut voice = PolyBlepVoice::new();
        voice.start(440, 0, waveform, 48_000);
        voice.next_sample()
    };
    assert_eq!(first(PolyBlepWaveform::Sawtooth), Some(127));
    assert_eq!(first(PolyBlepWaveform::Square), Some(0));
}

#[test]
fn framelist() {
    let mut engine = engine();
    engine.play_tone(1_000, 0, Waveform::Square);
    assert_eq!([0; 3].map(|_| engine.tick()), [0x01F7, 0x0213, 0x023E]);
}

#[test]
fn requests() {
    let mut bank = heapless::Vec::<u8, BANK_BUILD_CAP>::new();
    let mut builder = BankBuilder::new(8_000);
    builder
        .add_effect(7, EffectKind::Fm, 0, 200, 440, 150, &[])
        .unwrap();
    builder.finish(&mut bank).unwrap();
    let mut engine: AudioEngine<2> = AudioEngine::new(AudioConfig::default());
    engine.set_bank(SoundBank::over(&bank, 8_000, 1));
    let voices = [3, 5, 5, 7].map(|p| engine.play_with_priority(7, AdsrSpec::pad(), p));
    assert_eq!(voices, [Ok(0), Ok(1), Ok(0), Ok(0)]);
    assert_eq!([0, 1].map(|i| engine.voice(i).unwrap().priority), [7, 5]);

    let fm = [3, 0, 236_223_201, 0, 354_334_801, 72, 1];
    let envelope = [5, 80, 200, 120, 0, 0, 0, 40, 8_000];
    let rest = [200, 7, 128, 8_000];
    let voice = state_of(engine.voice(0).unwrap());
    assert_eq!(voice, [&fm[..], &envelope, &rest].concat());
}

#[test]
fn state_of_an_engine() {
    let mut engine = engine();
    let before = [2, 0, -1, -1, -1, 16_000, 1_000, 0, 255, 0, 0, 0, 0, 0, 0, 0];
    assert_eq!(state_of(&engine), before);
    engine.set_bank(SoundBank::over(&[0; 26], 8_000, 1));
    assert_eq!(state_of(&engine)[2..6], [1, 26, 8_000, 8_000]);
}

#[test]
fn state_of_sources() {
    let mut engine = engine();
    engine.play_tone(1_000, 2, Waveform::Triangle);
    engine.tick();
    let tone = [1, 1 << 28, 1 << 28, 2, 31, 1];
    assert_eq!(state_of(engine.voice(0).unwrap())[..6], tone);

    engine.play_polyblep(1, 0, PolyBlepWaveform::Square);
    engine.tick();
    let step = (1.0f32 / 16_000.0).to_bits() as i64;
    let polyblep = [2, step, step, 2, 1, 16_000, u32::MAX as i64, 1];
    assert_eq!(state_of(engine.voice(0).unwrap())[..8], polyblep);
}

/// The `Debug` text loses no bit of a float.
#[test]
fn float_phases() {
    let mut voice = PolyBlepVoice::new();
    voice.start(12_345, 0, PolyBlepWaveform::Triangle, 44_100);
    let step = 12_345f32 / 44_100f32;
    let mut phase = 0.0f32;
    for _ in 0..100_000 {
        assert_eq!(
            state_of(&voice)[..2],
            [phase, step].map(|f| f.to_bits() as i64)
        );
        voice.next_sample();
        phase += step;
        if phase >= 1.0 {
            phase -= 1.0;
        }
    }
}
