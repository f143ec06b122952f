//! The port, over its static library, by the bare declarations of the crate for Rust: its safe functions would copy the requests.

use super::library;
use crate::job::{Given, Script, Side};
use birchjack::raw::{birchjack_waiting_pcm_i16, birchjack_write_bank};

pub struct Port;

const GAIN: u8 = 255;
const PERIOD: u16 = 1000;
const PANS: [u8; 2] = [40, 200];

/// A sawtooth of a minute, where a frequency is asked for: of a waveform above 3 none is started.
fn tone(script: &Script) -> (u8, u32, u16) {
    match script.blep_hz {
        0 => (u8::MAX, 0, 0),
        hz => (1, hz, 60_000),
    }
}

/// How many cells were written: all, or none where the call was refused.
fn written(number: u8, cells: usize) -> usize {
    if number == 0 { cells } else { 0 }
}

impl Side for Port {
    fn find(bank: &[u8], rate: u32, count: u16, id: u16, entry: &mut [u32; 8]) -> u8 {
        // SAFETY: none of these calls has a `requires`; each slice lives and is no other's during the call.
        unsafe { library::find(bank.as_ptr(), bank.len(), rate, count, id, entry) }
    }

    fn write(given: &Given, out: &mut [u8]) -> usize {
        let (entries, payloads, mut len) = (&given.entries, &given.payloads, 0);
        // SAFETY: as above.
        unsafe {
            birchjack_write_bank(
                &given.header,
                entries.as_ptr(),
                entries.len(),
                payloads.as_ptr(),
                payloads.len(),
                out.as_mut_ptr(),
                out.len(),
                &mut len,
            );
        }
        len
    }

    fn play(script: &Script) -> usize {
        let (bank, requests) = (&script.bank, &script.requests);
        let (outcomes, mut audible): (&mut [u16], usize) = (&mut [], 0);
        // SAFETY: as above.
        unsafe {
            library::play(
                script.n,
                false,
                bank.as_ptr(),
                bank.len(),
                script.rate,
                script.count,
                requests.as_ptr(),
                requests.len(),
                outcomes.as_mut_ptr(),
                outcomes.len(),
                &mut audible,
            );
        }
        audible
    }

    fn mono(script: &Script, out: &mut [i16]) -> usize {
        let (bank, requests) = (&script.bank, &script.requests);
        let (waveform, hz, ms) = tone(script);
        // SAFETY: as above.
        let number = unsafe {
            library::pcm_i16(
                script.n,
                false,
                GAIN,
                bank.as_ptr(),
                bank.len(),
                script.rate,
                script.count,
                requests.as_ptr(),
                requests.len(),
                waveform,
                hz,
                ms,
                out.as_mut_ptr(),
                out.len(),
            )
        };
        written(number, out.len())
    }

    /// Of the present box, whichever the others are of: document 01's has no line.
    fn waiting(script: &Script, out: &mut [i16]) -> usize {
        let (bank, requests, left) = (&script.bank, &script.requests, &script.left);
        let (mut numbers, mut labels, mut count, mut dropped) = ([1; 32], [0; 32], 0, [0; 2]);
        // SAFETY: as above.
        let number = unsafe {
            birchjack_waiting_pcm_i16(
                script.n,
                false,
                GAIN,
                bank.as_ptr(),
                bank.len(),
                script.rate,
                script.count,
                requests.as_ptr(),
                requests.len(),
                left.as_ptr(),
                left.len(),
                numbers.as_mut_ptr(),
                numbers.len(),
                out.as_mut_ptr(),
                out.len(),
                &mut labels,
                &mut count,
                &mut dropped,
            )
        };
        assert!(numbers == [0; 32] && count == 32, "all 32 wait");
        written(number, out.len())
    }

    fn stereo(script: &Script, out: &mut [i16]) -> usize {
        let (bank, requests) = (&script.bank, &script.requests);
        let (waveform, hz, ms) = tone(script);
        // SAFETY: as above.
        let number = unsafe {
            library::stereo_i16(
                script.n,
                false,
                GAIN,
                bank.as_ptr(),
                bank.len(),
                script.rate,
                script.count,
                requests.as_ptr(),
                requests.len(),
                waveform,
                hz,
                ms,
                PANS.as_ptr(),
                PANS.len(),
                out.as_mut_ptr(),
                out.len(),
            )
        };
        written(number, out.len())
    }

    fn duty(script: &Script, out: &mut [u16]) -> usize {
        let (bank, requests) = (&script.bank, &script.requests);
        let (waveform, hz, ms) = tone(script);
        // SAFETY: as above.
        let number = unsafe {
            library::duty(
                script.n,
                false,
                GAIN,
                PERIOD,
                script.mode != 0,
                script.mode == 2,
                bank.as_ptr(),
                bank.len(),
                script.rate,
                script.count,
                requests.as_ptr(),
                requests.len(),
                waveform,
                hz,
                ms,
                out.as_mut_ptr(),
                out.len(),
            )
        };
        written(number, out.len())
    }
}
