original!("bank.rs");

impl<'a> SoundBank<'a> {
    /// A bank over lent bytes. The replay format gives rate and count beside the bytes; upstream's `parse` reads them from
    /// a header that the port does not look at.
    pub const fn over(data: &'a [u8], sample_rate_hz: u32, effect_count: u16) -> Self {
        Self {
            data,
            sample_rate_hz,
            effect_count,
        }
    }

    /// The same bank over other bytes.
    pub const fn lent<'b>(&self, data: &'b [u8]) -> SoundBank<'b> {
        SoundBank::over(data, self.sample_rate_hz, self.effect_count)
    }

    pub const fn length(&self) -> usize {
        self.data.len()
    }
}

impl crate::Peek for SoundBank<'_> {
    fn peek(&self, to: &mut alloc::vec::Vec<i64>) {
        to.extend([
            self.effect_count as i64,
            self.data.len() as i64,
            self.sample_rate_hz as i64,
        ]);
    }
}
