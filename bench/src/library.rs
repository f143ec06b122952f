//! Which calls of the static libraries make which box.

/// Over `crates/exports_engine`, whose library only this program links (`build.rs`).
pub mod document_01 {
    pub use birchjack::raw::birchjack_find as find;
    pub use birchjack_01_duty as duty;
    pub use birchjack_01_pcm_i16 as pcm_i16;
    pub use birchjack_01_play as play;
    pub use birchjack_01_stereo_i16 as stereo_i16;

    unsafe extern "C" {
        pub fn birchjack_01_play(
            n: usize,
            free_only: bool,
            bytes: *const u8,
            bytes_len: usize,
            sample_rate_hz: u32,
            effect_count: u16,
            requests: *const u8,
            requests_len: usize,
            outcomes: *mut u16,
            outcomes_len: usize,
            audible: *mut usize,
        ) -> u8;
        pub fn birchjack_01_pcm_i16(
            n: usize,
            free_only: bool,
            master_gain_q8: u8,
            bytes: *const u8,
            bytes_len: usize,
            sample_rate_hz: u32,
            effect_count: u16,
            requests: *const u8,
            requests_len: usize,
            polyblep_waveform: u8,
            polyblep_hz: u32,
            polyblep_ms: u16,
            out: *mut i16,
            out_len: usize,
        ) -> u8;
        pub fn birchjack_01_stereo_i16(
            n: usize,
            free_only: bool,
            master_gain_q8: u8,
            bytes: *const u8,
            bytes_len: usize,
            sample_rate_hz: u32,
            effect_count: u16,
            requests: *const u8,
            requests_len: usize,
            polyblep_waveform: u8,
            polyblep_hz: u32,
            polyblep_ms: u16,
            pans: *const u8,
            pans_len: usize,
            out: *mut i16,
            out_len: usize,
        ) -> u8;
        pub fn birchjack_01_duty(
            n: usize,
            free_only: bool,
            master_gain_q8: u8,
            period: u16,
            shaped: bool,
            second_order: bool,
            bytes: *const u8,
            bytes_len: usize,
            sample_rate_hz: u32,
            effect_count: u16,
            requests: *const u8,
            requests_len: usize,
            polyblep_waveform: u8,
            polyblep_hz: u32,
            polyblep_ms: u16,
            out: *mut u16,
            out_len: usize,
        ) -> u8;
    }
}

/// Over `crates/exports`, as every other program that links it.
pub mod document_02 {
    pub use birchjack::raw::{
        birchjack_duty as duty, birchjack_find as find, birchjack_pcm_i16 as pcm_i16,
        birchjack_play as play, birchjack_stereo_i16 as stereo_i16,
    };
}
