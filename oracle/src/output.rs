original!("output.rs");

impl SigmaDelta {
    /// A shaper whose sum is already `integrator`: record 57 begins with any sum, also one that would take millions of
    /// samples to reach.
    pub const fn at(integrator: i32) -> Self {
        Self { integrator }
    }
}

impl crate::Peek for PwmMapper {
    fn peek(&self, to: &mut alloc::vec::Vec<i64>) {
        to.extend([
            self.mode as i64,
            self.sigma_delta.integrator as i64,
            self.sigma_delta_2nd.e1 as i64,
            self.sigma_delta_2nd.e2 as i64,
        ]);
    }
}
