//! The library's functions as crates/exports, crates/exports_play and crates/exports_replay have them; `tools/header` compares the two. A slice is a pointer and then a length, an array a
//! pointer.

unsafe extern "C" {
    pub fn birchjack_gain(sample: i8, gain_q8: u8) -> i8;
    pub fn birchjack_lerp(a: i8, b: i8, fraction: u8) -> i8;
    pub fn birchjack_pan_gains(pan_q8: u8, out: *mut [u8; 2]);
    pub fn birchjack_phase_increment(freq_hz: u32, sample_rate_hz: u32) -> u32;
    pub fn birchjack_sine(index: u8) -> i8;
    pub fn birchjack_limit(sum: i32, out: *mut i8) -> u8;
    pub fn birchjack_duty_of(sample: i8, period: u16, out: *mut u16) -> u8;
    pub fn birchjack_fade_step(duration_ms: u16, sample_rate_hz: u32) -> u8;
    pub fn birchjack_length(ms: u16, sample_rate_hz: u32, out: *mut [u32; 2]) -> u8;
    pub fn birchjack_length_carrying(
        ms: u16,
        sample_rate_hz: u32,
        remainder: u32,
        out: *mut [u32; 2],
    ) -> u8;
    pub fn birchjack_total_length(
        lengths: *const u16,
        lengths_len: usize,
        sample_rate_hz: u32,
        out: *mut [u64; 2],
    ) -> u8;
    pub fn birchjack_turned_away(
        voices: u8,
        priorities: u8,
        requests: u8,
        priority: u8,
        out: *mut [u32; 2],
    ) -> u8;
    pub fn birchjack_envelope(
        attack_ms: u16,
        decay_ms: u16,
        sustain_q8: u8,
        release_ms: u16,
        sample_rate_hz: u32,
        held: *mut u8,
        held_len: usize,
        left: *mut u8,
        left_len: usize,
    ) -> u8;
    pub fn birchjack_evacuation_cycle(sample_rate_hz: u32, out: *mut u32) -> u8;
    pub fn birchjack_evacuation_sounds(sample_rate_hz: u32, sample: u64, out: *mut u8) -> u8;
    pub fn birchjack_evacuation_fill(
        sample_rate_hz: u32,
        first: u64,
        out: *mut u8,
        out_len: usize,
    ) -> u8;
    pub fn birchjack_evacuation_reads(
        sample_rate_hz: u32,
        recording: *const u8,
        recording_len: usize,
        out: *mut u8,
    ) -> u8;
    pub fn birchjack_find(
        bytes: *const u8,
        bytes_len: usize,
        sample_rate_hz: u32,
        effect_count: u16,
        id: u16,
        out: *mut [u32; 8],
    ) -> u8;
    pub fn birchjack_payload(
        bytes: *const u8,
        bytes_len: usize,
        sample_rate_hz: u32,
        effect_count: u16,
        offset: u32,
        len: u32,
    ) -> u8;
    pub fn birchjack_payload_of(
        bytes: *const u8,
        bytes_len: usize,
        sample_rate_hz: u32,
        effect_count: u16,
        id: u16,
        out: *mut [u32; 2],
    ) -> u8;
    pub fn birchjack_write_bank(
        header: *const [u8; 10],
        entries: *const u8,
        entries_len: usize,
        payloads: *const u8,
        payloads_len: usize,
        out: *mut u8,
        out_len: usize,
        len: *mut usize,
    ) -> u8;
    pub fn birchjack_play(
        n: usize,
        free_only: bool,
        bytes: *const u8,
        bytes_len: usize,
        sample_rate_hz: u32,
        effect_count: u16,
        requests: *const u8,
        requests_len: usize,
        outcomes: *mut u16,
        outcomes_len: usize,
        audible: *mut usize,
    ) -> u8;
    pub fn birchjack_pcm_i16(
        n: usize,
        free_only: bool,
        master_gain_q8: u8,
        bytes: *const u8,
        bytes_len: usize,
        sample_rate_hz: u32,
        effect_count: u16,
        requests: *const u8,
        requests_len: usize,
        polyblep_waveform: u8,
        polyblep_hz: u32,
        polyblep_ms: u16,
        out: *mut i16,
        out_len: usize,
    ) -> u8;
    pub fn birchjack_waiting_pcm_i16(
        n: usize,
        free_only: bool,
        master_gain_q8: u8,
        bytes: *const u8,
        bytes_len: usize,
        sample_rate_hz: u32,
        effect_count: u16,
        requests: *const u8,
        requests_len: usize,
        left: *const u8,
        left_len: usize,
        numbers: *mut u8,
        numbers_len: usize,
        out: *mut i16,
        out_len: usize,
        labels: *mut [u16; 32],
        count: *mut usize,
        dropped: *mut [u16; 2],
    ) -> u8;
    pub fn birchjack_stereo_i16(
        n: usize,
        free_only: bool,
        master_gain_q8: u8,
        bytes: *const u8,
        bytes_len: usize,
        sample_rate_hz: u32,
        effect_count: u16,
        requests: *const u8,
        requests_len: usize,
        polyblep_waveform: u8,
        polyblep_hz: u32,
        polyblep_ms: u16,
        pans: *const u8,
        pans_len: usize,
        out: *mut i16,
        out_len: usize,
    ) -> u8;
    pub fn birchjack_duty(
        n: usize,
        free_only: bool,
        master_gain_q8: u8,
        period: u16,
        shaped: bool,
        second_order: bool,
        bytes: *const u8,
        bytes_len: usize,
        sample_rate_hz: u32,
        effect_count: u16,
        requests: *const u8,
        requests_len: usize,
        polyblep_waveform: u8,
        polyblep_hz: u32,
        polyblep_ms: u16,
        out: *mut u16,
        out_len: usize,
    ) -> u8;
    pub fn birchjack_answers(
        script: *const u8,
        script_len: usize,
        out: *mut u8,
        out_len: usize,
        good: *mut bool,
    ) -> usize;
    pub fn birchjack_sound(
        script: *const u8,
        script_len: usize,
        out: *mut i16,
        out_len: usize,
        good: *mut bool,
    ) -> usize;
}
