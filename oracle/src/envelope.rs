original!("envelope.rs");

impl crate::Peek for Adsr {
    fn peek(&self, to: &mut alloc::vec::Vec<i64>) {
        to.extend([
            self.spec.attack_ms as i64,
            self.spec.decay_ms as i64,
            self.spec.sustain_q8 as i64,
            self.spec.release_ms as i64,
            self.phase as i64,
            self.level_q8 as i64,
            self.samples_in_phase as i64,
            self.phase_length_samples as i64,
            self.sample_rate_hz as i64,
        ]);
    }
}
