pub mod tone {
    original!("synth/tone.rs");

    impl crate::Peek for ToneVoice {
        fn peek(&self, to: &mut alloc::vec::Vec<i64>) {
            to.extend([
                self.phase as i64,
                self.phase_inc as i64,
                self.waveform as i64,
                self.samples_left as i64,
                self.active as i64,
            ]);
        }
    }
}

pub mod fm {
    original!("synth/fm.rs");

    impl crate::Peek for FmVoice {
        fn peek(&self, to: &mut alloc::vec::Vec<i64>) {
            to.extend([
                self.carrier_phase as i64,
                self.carrier_inc as i64,
                self.mod_phase as i64,
                self.mod_inc as i64,
                self.mod_depth_q8 as i64,
                self.active as i64,
            ]);
        }
    }
}

pub mod polyblep {
    original!("synth/polyblep.rs");

    impl crate::Peek for PolyBlepVoice {
        fn peek(&self, to: &mut alloc::vec::Vec<i64>) {
            to.extend([
                self.osc.phase.to_bits() as i64,
                self.osc.phase_inc.to_bits() as i64,
                self.osc.waveform as i64,
                self.osc.freq_hz as i64,
                self.osc.sample_rate_hz as i64,
                self.samples_left as i64,
                self.active as i64,
            ]);
        }
    }

    /// Where a voice stands in its turn.
    pub fn phase_of(voice: &PolyBlepVoice) -> f32 {
        voice.osc.phase
    }

    /// A voice that sounds without end from a phase on; the rest is a new voice's.
    pub fn voice_at(phase: f32, phase_inc: f32, waveform: PolyBlepWaveform) -> PolyBlepVoice {
        let mut voice = PolyBlepVoice::new();
        voice.osc.phase = phase;
        voice.osc.phase_inc = phase_inc;
        voice.osc.waveform = waveform;
        voice.samples_left = u32::MAX;
        voice.active = true;
        voice
    }
}

pub mod wavetable {
    original!("synth/wavetable.rs");
}

pub use fm::FmVoice;
pub use polyblep::{PolyBlepOscillator, PolyBlepVoice, PolyBlepWaveform};
pub use tone::{ToneParams, ToneVoice, Waveform};
pub use wavetable::WavetableVoice;
