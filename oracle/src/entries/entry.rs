//! The entries, as include/hipokuta.h declares them; the benchmark has this file too.

unsafe extern "C" {
    pub fn vbv_check(
        stream: *const u8,
        stream_len: usize,
        mode: u8,
        report: *mut u8,
        report_len: usize,
        records: *mut u8,
        records_len: usize,
        refusal: *mut u8,
        refusal_len: usize,
    ) -> u64;
    pub fn vbv_report(
        stream: *const u8,
        stream_len: usize,
        mode: u8,
        report: *mut u8,
        report_len: usize,
        refusal: *mut u8,
        refusal_len: usize,
    ) -> u64;
    pub fn vbv_patch_delay(picture: *mut u8, picture_len: usize, vbv_delay: u16) -> u64;
    pub fn cbr_create(
        bit_rate_value: u32,
        vbv_buffer_size_value: u16,
        frame_rate_code: u8,
        quantiser: u8,
        b_between: u8,
        anchors_per_gop: u8,
        state: *mut u8,
        state_len: usize,
    ) -> u64;
    pub fn cbr_create_config(config: *const u8, config_len: usize, state: *mut u8, state_len: usize) -> u64;
    pub fn cbr_offer(
        state: *mut u8,
        state_len: usize,
        headers: *const u8,
        headers_len: usize,
        kind: u8,
        interval: u8,
        last: u8,
        layer: *const u8,
        layer_len: usize,
        out: *mut u8,
        out_len: usize,
        answer: *mut u8,
        answer_len: usize,
    ) -> u64;
    pub fn cbr_withdraw(state: *mut u8, state_len: usize) -> u64;
}
