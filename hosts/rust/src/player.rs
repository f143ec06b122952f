//! A box of the present rules that is opened, plays requests and gives frames, all in one call.

use crate::{Bank, Envelope, Refusal, raw};

/// A play request. On the way over it has ten bytes, each number big-endian.
#[derive(Clone, Copy, Debug, PartialEq, Eq)]
pub struct Request {
    pub id: u16,
    pub envelope: Envelope,
    pub priority: u8,
}

impl Request {
    fn bytes(&self) -> [u8; 10] {
        let (i, e) = (self.id.to_be_bytes(), self.envelope);
        let (a, d, r) = (
            e.attack_ms.to_be_bytes(),
            e.decay_ms.to_be_bytes(),
            e.release_ms.to_be_bytes(),
        );
        [
            i[0],
            i[1],
            a[0],
            a[1],
            d[0],
            d[1],
            e.sustain_q8,
            r[0],
            r[1],
            self.priority,
        ]
    }
}

/// Which voice a request gets.
#[derive(Clone, Copy, Debug, Default, PartialEq, Eq)]
pub enum Policy {
    #[default]
    LowestPriorityOldest,
    FreeChannelOnly,
}

/// How a sample becomes a compare value.
#[derive(Clone, Copy, Debug, PartialEq, Eq)]
pub enum DutyMode {
    Linear,
    SigmaDelta,
    SigmaDelta2ndOrder,
}

#[derive(Clone, Copy, Debug, PartialEq, Eq)]
#[repr(u8)]
pub enum Waveform {
    Sine = 0,
    Sawtooth = 1,
    Square = 2,
    Triangle = 3,
}

/// A tone by PolyBLEP.
#[derive(Clone, Copy, Debug, PartialEq, Eq)]
pub struct PolyBlep {
    pub waveform: Waveform,
    pub freq_hz: u32,
    pub duration_ms: u16,
}

/// What a play of requests gives.
#[derive(Clone, Debug, PartialEq, Eq)]
pub struct Played {
    /// The voice that each request got, or why it got none.
    pub outcomes: Vec<Result<usize, Refusal>>,
    /// How many voices are audible after the last.
    pub audible: usize,
}

/// A request that is left under a label of its caller's choosing, to go in when a voice falls free.
#[derive(Clone, Copy, Debug, PartialEq, Eq)]
pub struct Leaving {
    pub label: u16,
    pub request: Request,
}

impl Leaving {
    fn bytes(&self) -> Vec<u8> {
        [&self.label.to_be_bytes()[..], &self.request.bytes()].concat()
    }
}

/// What is told of requests that were left.
#[derive(Clone, Debug, PartialEq, Eq)]
pub struct Waited {
    /// Whether each was accepted.
    pub outcomes: Vec<Result<(), Refusal>>,
    /// The labels that wait after the frames, next first.
    pub labels: Vec<u16>,
    /// Why the latest that was dropped was refused, and its label.
    pub dropped: Option<(Refusal, u16)>,
}

/// A box of some voices with a policy and a master gain. Each call opens it anew, sets the bank and plays the requests one after
/// another; those that give frames then let voice 0 sound the tone, where there is one. More than 16 voices, a rate above 65,537 and
/// a bank whose entries go past its bytes are refused, and then nothing is written.
#[derive(Clone, Copy, Debug)]
pub struct Player<'a> {
    pub voices: usize,
    pub policy: Policy,
    pub master_gain_q8: u8,
    pub bank: Bank<'a>,
    pub polyblep: Option<PolyBlep>,
}

impl Player<'_> {
    /// What becomes of each request.
    pub fn play(&self, requests: &[Request]) -> Result<Played, Refusal> {
        let (bank, bytes) = (&self.bank, laid(requests));
        let (mut cells, mut audible) = (vec![0; requests.len()], 0);
        Refusal::read(unsafe {
            raw::birchjack_play(
                self.voices,
                self.free_only(),
                bank.bytes.as_ptr(),
                bank.bytes.len(),
                bank.sample_rate_hz,
                bank.effect_count,
                bytes.as_ptr(),
                bytes.len(),
                cells.as_mut_ptr(),
                cells.len(),
                &mut audible,
            )
        })?;
        let outcomes = cells.into_iter().map(outcome).collect();
        Ok(Played { outcomes, audible })
    }

    /// A mono frame in each cell.
    pub fn pcm_i16(&self, requests: &[Request], out: &mut [i16]) -> Result<(), Refusal> {
        let (bank, bytes) = (&self.bank, laid(requests));
        let (waveform, freq_hz, duration_ms) = self.tone();
        Refusal::read(unsafe {
            raw::birchjack_pcm_i16(
                self.voices,
                self.free_only(),
                self.master_gain_q8,
                bank.bytes.as_ptr(),
                bank.bytes.len(),
                bank.sample_rate_hz,
                bank.effect_count,
                bytes.as_ptr(),
                bytes.len(),
                waveform,
                freq_hz,
                duration_ms,
                out.as_mut_ptr(),
                out.len(),
            )
        })
    }

    /// A mono frame in each cell, after requests were played and others left. No tone is sounded.
    pub fn waiting_pcm_i16(
        &self,
        requests: &[Request],
        left: &[Leaving],
        out: &mut [i16],
    ) -> Result<Waited, Refusal> {
        let (bank, bytes) = (&self.bank, laid(requests));
        let waiting: Vec<u8> = left.iter().flat_map(Leaving::bytes).collect();
        let mut numbers = vec![0; left.len()];
        let (mut labels, mut count, mut dropped) = ([0; 32], 0, [0; 2]);
        Refusal::read(unsafe {
            raw::birchjack_waiting_pcm_i16(
                self.voices,
                self.free_only(),
                self.master_gain_q8,
                bank.bytes.as_ptr(),
                bank.bytes.len(),
                bank.sample_rate_hz,
                bank.effect_count,
                bytes.as_ptr(),
                bytes.len(),
                waiting.as_ptr(),
                waiting.len(),
                numbers.as_mut_ptr(),
                numbers.len(),
                out.as_mut_ptr(),
                out.len(),
                &mut labels,
                &mut count,
                &mut dropped,
            )
        })?;
        let [number, label] = dropped;
        Ok(Waited {
            outcomes: numbers.into_iter().map(Refusal::read).collect(),
            labels: labels[..count].to_vec(),
            dropped: Refusal::read(number as u8).err().map(|why| (why, label)),
        })
    }

    /// A stereo frame in each pair of cells (an odd last is not written), with a pan for each voice from voice 0 on.
    pub fn stereo_i16(
        &self,
        pans: &[u8],
        requests: &[Request],
        out: &mut [i16],
    ) -> Result<(), Refusal> {
        let (bank, bytes) = (&self.bank, laid(requests));
        let (waveform, freq_hz, duration_ms) = self.tone();
        Refusal::read(unsafe {
            raw::birchjack_stereo_i16(
                self.voices,
                self.free_only(),
                self.master_gain_q8,
                bank.bytes.as_ptr(),
                bank.bytes.len(),
                bank.sample_rate_hz,
                bank.effect_count,
                bytes.as_ptr(),
                bytes.len(),
                waveform,
                freq_hz,
                duration_ms,
                pans.as_ptr(),
                pans.len(),
                out.as_mut_ptr(),
                out.len(),
            )
        })
    }

    /// A compare value in each cell, in a period of at least 2.
    pub fn duty(
        &self,
        period: u16,
        mode: DutyMode,
        requests: &[Request],
        out: &mut [u16],
    ) -> Result<(), Refusal> {
        let (bank, bytes) = (&self.bank, laid(requests));
        let (waveform, freq_hz, duration_ms) = self.tone();
        Refusal::read(unsafe {
            raw::birchjack_duty(
                self.voices,
                self.free_only(),
                self.master_gain_q8,
                period,
                mode != DutyMode::Linear,
                mode == DutyMode::SigmaDelta2ndOrder,
                bank.bytes.as_ptr(),
                bank.bytes.len(),
                bank.sample_rate_hz,
                bank.effect_count,
                bytes.as_ptr(),
                bytes.len(),
                waveform,
                freq_hz,
                duration_ms,
                out.as_mut_ptr(),
                out.len(),
            )
        })
    }

    fn free_only(&self) -> bool {
        self.policy == Policy::FreeChannelOnly
    }

    /// The tone's three numbers; of a waveform above 3 none is started.
    fn tone(&self) -> (u8, u32, u16) {
        match self.polyblep {
            None => (u8::MAX, 0, 0),
            Some(p) => (p.waveform as u8, p.freq_hz, p.duration_ms),
        }
    }
}

/// A cell of `birchjack_play`: a voice, or 256 * the refusal's number + 255.
fn outcome(cell: u16) -> Result<usize, Refusal> {
    Refusal::read((cell >> 8) as u8)?;
    Ok(usize::from(cell))
}

fn laid(requests: &[Request]) -> Vec<u8> {
    requests.iter().flat_map(Request::bytes).collect()
}
