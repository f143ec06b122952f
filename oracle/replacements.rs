//! What document 02 changes in the original: one named replacement of text for each rule. The crate `present` is the original's
//! files with these, the crate `oracle` the same files without any.

pub struct Replacement {
    /// The request and its rule.
    pub name: &'static str,
    /// Under the original's `src`.
    pub file: &'static str,
    pub old: &'static str,
    pub new: &'static str,
}

/// Every gain goes through the one function: envelope, voice and pan in `voice.rs`, master in `engine.rs`. FM's depth, the
/// interpolations and the fade's mix have sums of their own and stay. Every payload is found by the one lookup, at an entry start too; a
/// bank that is set is not looked at there. The ages of T-07 are kept beside the voices (`src/ages.rs`): of the calls that start a voice the port
/// has an entry start, a tone and a PolyBLEP one. T-09's fade is a call beside the old one, which stays; an envelope is handed over whole (`src/voice.rs`).
pub const REPLACEMENTS: &[Replacement] = &[
    Replacement {
        name: "T-03: gain 255 hands the sample through",
        file: "fixed.rs",
        old: "pub fn apply_gain_q8(sample: i8, gain_q8: u8) -> i8 {\n",
        new: "pub fn apply_gain_q8(sample: i8, gain_q8: u8) -> i8 {
    if gain_q8 == 255 {
        return sample;
    }
",
    },
    Replacement {
        name: "T-06: which end of the payload is wrong",
        file: "bank.rs",
        old: "        self.data.get(start..end).ok_or(AudioError::TruncatedBank)\n",
        new: "        if start > self.data.len() {
            return Err(AudioError::OffsetBeyondBank);
        }
        self.data.get(start..end).ok_or(AudioError::PayloadRunsOver)
",
    },
    Replacement {
        name: "T-06: the two errors",
        file: "error.rs",
        old: "    InvalidPayload,\n}\n",
        new: "    InvalidPayload,\n    OffsetBeyondBank,\n    PayloadRunsOver,\n}\n",
    },
    Replacement {
        name: "T-06: the two errors' texts",
        file: "error.rs",
        old: "            Self::InvalidPayload => \"invalid effect payload\",\n",
        new: "            Self::InvalidPayload => \"invalid effect payload\",
            Self::OffsetBeyondBank => \"payload begins beyond the bank\",
            Self::PayloadRunsOver => \"payload runs over the bank's end\",
",
    },
    Replacement {
        name: "T-07: the ages beside the voices",
        file: "engine.rs",
        old: "    stealing_policy: VoiceStealingPolicy,\n",
        new: "    stealing_policy: VoiceStealingPolicy,\n    pub ages: crate::ages::Ages<N>,\n",
    },
    Replacement {
        name: "T-07: none is started at first",
        file: "engine.rs",
        old: "            stealing_policy: VoiceStealingPolicy::default(),\n",
        new: "            stealing_policy: VoiceStealingPolicy::default(),
            ages: crate::ages::Ages::new(),
",
    },
    Replacement {
        name: "T-07: among equals the oldest goes",
        file: "engine.rs",
        old: "                if v.priority < lowest_prio {\n",
        new: "                let equal = lowest_idx.filter(|_| v.priority == lowest_prio);
                let older = equal.is_some_and(|lowest| self.ages.is_older(i, lowest));
                if v.priority < lowest_prio || older {
",
    },
    Replacement {
        name: "T-07: an entry start is a start",
        file: "engine.rs",
        old: "        self.voices[idx] = voice;\n        Ok(())\n",
        new: "        self.voices[idx] = voice;
        self.ages.start(idx);
        Ok(())
",
    },
    Replacement {
        name: "T-07: a tone is a start",
        file: "engine.rs",
        old: "                .start_tone(freq_hz, duration_ms, waveform, rate);\n",
        new: "                .start_tone(freq_hz, duration_ms, waveform, rate);
            self.ages.start(0);
",
    },
    Replacement {
        name: "T-07: PolyBLEP is a start",
        file: "engine.rs",
        old: "                .start_polyblep(freq_hz, duration_ms, waveform, rate);\n",
        new: "                .start_polyblep(freq_hz, duration_ms, waveform, rate);
            self.ages.start(0);
",
    },
    Replacement {
        name: "T-07: at a fade's end voice 0 has voice 1's place in age",
        file: "engine.rs",
        old: "            self.voices[1].stop_immediate();\n",
        new: "            self.voices[1].stop_immediate();
            self.ages.end_fade();
",
    },
    Replacement {
        name: "T-09: which call began the last fade",
        file: "engine.rs",
        old: "    crossfade_active: bool,\n",
        new: "    crossfade_active: bool,\n    sounds_on: bool,\n",
    },
    Replacement {
        name: "T-09: none has begun one at first",
        file: "engine.rs",
        old: "            crossfade_active: false,\n",
        new: "            crossfade_active: false,\n            sounds_on: false,\n",
    },
    Replacement {
        name: "T-09: the call of old began it",
        file: "engine.rs",
        old: "        self.crossfade_active = true;\n",
        new: "        self.crossfade_active = true;\n        self.sounds_on = false;\n",
    },
    Replacement {
        name: "T-09: at its end voice 0 takes voice 1's envelope",
        file: "engine.rs",
        old: "            self.voices[0].pan_q8 = self.voices[1].pan_q8;\n",
        new: "            self.voices[0].pan_q8 = self.voices[1].pan_q8;
            if self.sounds_on {
                let envelope = self.voices[1].envelope();
                self.voices[0].take_envelope(envelope);
            }
",
    },
    Replacement {
        name: "T-09: a fade that keeps sounding",
        file: "engine.rs",
        old: "    fn advance_crossfade(&mut self) {\n",
        new: "    /// Voice 1 is started before voice 0 is released, so that a refusal changes nothing.
    pub fn crossfade_sounding_on(
        &mut self,
        effect_id: u16,
        duration_ms: u16,
        adsr: AdsrSpec,
    ) -> Result<(), AudioError> {
        if N < 2 {
            return Err(AudioError::VoiceBusy);
        }
        let bank = self.bank.ok_or(AudioError::NoBank)?;
        let entry = bank.find_by_id(effect_id)?;
        self.start_on_voice(1, &bank, entry, adsr, 128)?;
        self.voices[0].release();
        self.crossfade_active = true;
        self.sounds_on = true;
        self.crossfade_t_q8 = 0;
        self.crossfade_step_q8 = crossfade_step_q8(duration_ms, self.config.sample_rate_hz);
        Ok(())
    }

    fn advance_crossfade(&mut self) {
",
    },
];

/// A file's text with the replacements that are for it. The old text of each must stand there exactly once, also after those before it.
pub fn replaced(file: &str, original: &str, all: &[Replacement]) -> Result<String, String> {
    let mut text = original.to_string();
    for Replacement { name, old, new, .. } in all.iter().filter(|found| found.file == file) {
        for (times, state) in [
            (original.matches(old).count(), "unchanged"),
            (text.matches(old).count(), "as changed so far"),
        ] {
            if times != 1 {
                return Err(format!(
                    "{name}: {file}, {state}, has its old text {times} times"
                ));
            }
        }
        text = text.replace(old, new);
    }
    Ok(text)
}

/// The replacements that are for none of these files.
pub fn astray<'a>(files: &[String], all: &'a [Replacement]) -> Vec<&'a str> {
    let for_none = |found: &&Replacement| !files.iter().any(|file| file == found.file);
    all.iter()
        .filter(for_none)
        .map(|found| found.name)
        .collect()
}
