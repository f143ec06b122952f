original!("engine.rs");

use crate::Peek;

impl<'a, const N: usize> AudioEngine<'a, N> {
    pub fn bank(&self) -> Option<SoundBank<'a>> {
        self.bank
    }

    /// How many frames a fade has left: how often the original advances its t until the fade is over. 0 where none is running.
    pub fn fade_frames_left(&self) -> i64 {
        let mut fade = AudioEngine::<N>::with_voice_count(self.config);
        fade.crossfade_t_q8 = self.crossfade_t_q8;
        fade.crossfade_step_q8 = self.crossfade_step_q8;
        fade.crossfade_active = self.crossfade_active;
        let mut frames = 0;
        while fade.crossfade_active {
            fade.advance_crossfade();
            frames += 1;
        }
        frames
    }

    /// The same engine, for a longer time, with a bank that lasts as long.
    fn kept(self, bank: Option<SoundBank<'static>>) -> AudioEngine<'static, N> {
        AudioEngine {
            bank,
            config: self.config,
            voices: self.voices.map(Voice::kept),
            mapper: self.mapper,
            crossfade_t_q8: self.crossfade_t_q8,
            crossfade_step_q8: self.crossfade_step_q8,
            crossfade_active: self.crossfade_active,
            stealing_policy: self.stealing_policy,
            #[cfg(present)]
            ages: self.ages,
            #[cfg(present)]
            sounds_on: self.sounds_on,
            #[cfg(feature = "fm")]
            fm_mapper: self.fm_mapper,
        }
    }
}

impl<const N: usize> AudioEngine<'static, N> {
    /// One call with the bank over the bytes lent now. The original keeps the bank's bytes, the port is lent them anew for
    /// each call. Nothing but the bank's bytes is another one during the call, and the bank is the old one after it.
    pub fn lent<T>(&mut self, bytes: &[u8], call: impl FnOnce(&mut AudioEngine<'_, N>) -> T) -> T {
        let held = self.bank;
        let aside = core::mem::replace(self, Self::with_voice_count(self.config));
        let mut engine: AudioEngine<'_, N> = aside;
        engine.bank = held.map(|bank| bank.lent(bytes));
        let answer = call(&mut engine);
        *self = engine.kept(held);
        answer
    }
}

/// The engine's own line. Its voices are read through `voice`.
impl<const N: usize> Peek for AudioEngine<'_, N> {
    fn peek(&self, to: &mut alloc::vec::Vec<i64>) {
        to.extend([N as i64, self.stealing_policy as i64]);
        match &self.bank {
            Some(bank) => bank.peek(to),
            None => to.extend([-1; 3]),
        }
        to.extend([
            self.config.sample_rate_hz as i64,
            self.config.pwm_period as i64,
            self.config.duty_mode as i64,
            self.config.master_gain_q8 as i64,
        ]);
        self.mapper.peek(to);
        to.extend([
            self.crossfade_t_q8 as i64,
            self.crossfade_step_q8 as i64,
            self.crossfade_active as i64,
        ]);
    }
}
