//! Fields that stand for a value of the original's own types.

use super::original::engine::VoiceStealingPolicy;
use super::original::envelope::AdsrSpec;
use super::original::output::DutyMode;
use super::original::synth::{PolyBlepWaveform, Waveform};
use crate::fields::{Bad, Fields};

pub trait Choices {
    fn envelope(&mut self) -> AdsrSpec;
    fn duty_mode(&mut self) -> Result<DutyMode, Bad>;
    fn policy(&mut self) -> Result<VoiceStealingPolicy, Bad>;
    fn waveform(&mut self) -> Result<Waveform, Bad>;
    fn polyblep_waveform(&mut self) -> Result<PolyBlepWaveform, Bad>;
}

impl Choices for Fields<'_> {
    fn envelope(&mut self) -> AdsrSpec {
        AdsrSpec {
            attack_ms: self.u16(),
            decay_ms: self.u16(),
            sustain_q8: self.u8(),
            release_ms: self.u16(),
        }
    }

    fn duty_mode(&mut self) -> Result<DutyMode, Bad> {
        use DutyMode::{Linear, SigmaDelta, SigmaDelta2ndOrder};
        self.one_of(&[Linear, SigmaDelta, SigmaDelta2ndOrder])
    }

    fn policy(&mut self) -> Result<VoiceStealingPolicy, Bad> {
        use VoiceStealingPolicy::{FreeChannelOnly, LowestPriorityOldest};
        self.one_of(&[LowestPriorityOldest, FreeChannelOnly])
    }

    fn waveform(&mut self) -> Result<Waveform, Bad> {
        use Waveform::{Sine, Square, Triangle};
        self.one_of(&[Square, Sine, Triangle])
    }

    fn polyblep_waveform(&mut self) -> Result<PolyBlepWaveform, Bad> {
        use PolyBlepWaveform::{Sawtooth, Sine, Square, Triangle};
        self.one_of(&[Sine, Sawtooth, Square, Triangle])
    }
}
