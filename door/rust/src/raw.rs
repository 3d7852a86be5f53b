//! The functions of the library as they stand: `door/nimbrascelto.h` says what each does.
//!
//! A caller passes pointers to as many elements as it says, none of them null, and what is written overlaps nothing else.

pub const STATE_WORDS: usize = 452;
pub const SLOTS: usize = 128;
pub const IMPORTS: usize = 48;
pub const MARKS: usize = 177;
pub const PLACE: usize = 2;

pub const DAMAGED: u8 = 29;
pub const NO_ENTRY: u8 = 30;
pub const WRONG_SIZE: u8 = 90;

/// The word of the number 0.
pub const NUMBER_ZERO: u64 = 3 << 47;

extern "C" {
    pub fn nimbra_start(script: *const u8, script_bytes: usize, state: *mut u64, state_words: usize) -> u8;
    pub fn nimbra_step(
        state: *mut u64,
        state_words: usize,
        step: *const u8,
        step_bytes: usize,
        results: *mut u64,
        results_words: usize,
    ) -> u8;
    pub fn nimbra_step_held(
        state: *mut u64,
        state_words: usize,
        step: *const u8,
        step_bytes: usize,
        results: *mut u64,
        results_words: usize,
    ) -> u8;
    pub fn nimbra_next_alarm(results: *const u64, results_words: usize, from: u64) -> u64;
    pub fn nimbra_label(
        script: *const u8,
        script_bytes: usize,
        entry: u64,
        place: *mut u64,
        place_words: usize,
    ) -> u8;
    pub fn nimbra_labels(script: *const u8, script_bytes: usize, place: *mut u64, place_words: usize) -> u8;
    pub fn nimbra_reach(
        state: *const u64,
        state_words: usize,
        entry: u64,
        marks: *mut u8,
        marks_bytes: usize,
    ) -> u8;
    pub fn nimbra_write(
        state: *const u64,
        state_words: usize,
        labels: *const u8,
        labels_bytes: usize,
        out: *mut u8,
        out_bytes: usize,
        size: *mut u64,
        size_words: usize,
    ) -> u8;
}
