original!("voice.rs");

use crate::Peek;

impl Peek for Voice<'_> {
    fn peek(&self, to: &mut alloc::vec::Vec<i64>) {
        peek_source(&self.source, to);
        self.adsr.peek(to);
        to.extend([
            self.gain_q8 as i64,
            self.priority as i64,
            self.pan_q8 as i64,
            self.sample_rate_hz as i64,
        ]);
    }
}

/// An envelope, as it stands, from one voice to another: document 02's T-09.
#[cfg(present)]
impl Voice<'_> {
    pub fn envelope(&self) -> Adsr {
        self.adsr
    }

    pub fn take_envelope(&mut self, envelope: Adsr) {
        self.adsr = envelope;
    }
}

impl Voice<'_> {
    /// The same voice, for a longer time: of the sources that are carried over none holds a part of the bank.
    pub fn kept(self) -> Voice<'static> {
        let source = match self.source {
            VoiceSource::Idle => VoiceSource::Idle,
            VoiceSource::Tone(tone) => VoiceSource::Tone(tone),
            VoiceSource::PolyBlep(polyblep) => VoiceSource::PolyBlep(polyblep),
            VoiceSource::Fm(fm) => VoiceSource::Fm(fm),
            _ => unreachable!("a source that is not carried over"),
        };
        Voice {
            source,
            adsr: self.adsr,
            gain_q8: self.gain_q8,
            priority: self.priority,
            pan_q8: self.pan_q8,
            sample_rate_hz: self.sample_rate_hz,
        }
    }
}

/// The sources are numbered as document 01 lists them, without those that are not carried over.
pub fn peek_source(source: &VoiceSource, to: &mut alloc::vec::Vec<i64>) {
    let (number, fields): (i64, &dyn Peek) = match source {
        VoiceSource::Idle => return to.push(0),
        VoiceSource::Tone(tone) => (1, tone),
        VoiceSource::PolyBlep(polyblep) => (2, polyblep),
        VoiceSource::Fm(fm) => (3, fm),
        _ => unreachable!("a source that is not carried over"),
    };
    to.push(number);
    fields.peek(to);
}
