//! The functions of libneon_terms.a. include/neon_terms.h of the repository says what each promises, and who owns what; the crate
//! `neon_terms` is a safe wrapper.
#![no_std]

unsafe extern "C" {
    pub safe fn neon_version() -> u64;
    pub safe fn neon_form_code(operation: u64, arrangement: u64) -> u64;
    pub fn neon_pool_check(pool: *const u64, words: usize, count: usize) -> bool;
    pub fn neon_lower_instruction(
        pool: *mut u64, words: usize, count: usize, operation: u64, arrangement: u64, i: u64, d: usize, n: usize, m: usize,
        node: *mut usize, after: *mut usize,
    ) -> u64;
    pub fn neon_lower_block(pool: *mut u64, words: usize, records: *const u64, numbers: usize, results: *mut [u64; 34]) -> u64;
    pub fn neon_lower_block_saturation(
        pool: *mut u64, words: usize, records: *const u64, numbers: usize, results: *mut [u64; 35],
    ) -> u64;
    pub fn neon_write_text(pool: *const u64, words: usize, count: usize, node: usize, buffer: *mut u8, bytes: usize, length: *mut usize) -> u64;
    pub fn neon_text_length(pool: *const u64, words: usize, count: usize, node: usize, ceiling: u32, length: *mut u64) -> u64;
    pub fn neon_registers_of(pool: *const u64, words: usize, count: usize, node: usize, set: *mut u64) -> u64;
    pub fn neon_value(
        pool: *const u64, words: usize, count: usize, node: usize, start: *const [u64; 64], allowance: u64, value: *mut [u64; 3],
        visits: *mut u64,
    ) -> u64;
    pub fn neon_read_words(bytes: *const u8, length: usize, records: *mut u64, entries: usize, count: *mut usize, position: *mut usize) -> u64;
    pub fn neon_write_words(records: *const u64, numbers: usize, bytes: *mut u8, length: usize, count: *mut usize, position: *mut usize) -> u64;
    pub fn neon_read_lines(bytes: *const u8, length: usize, records: *mut u64, entries: usize, count: *mut usize, position: *mut usize) -> u64;
    pub fn neon_join(
        first: *const u64, first_words: usize, first_count: usize, a: usize, second: *const u64, second_words: usize, second_count: usize, b: usize,
        joined: *mut u64, joined_words: usize, node: *mut usize, count: *mut usize,
    ) -> u64;
    pub fn neon_canonical(
        pool: *const u64, words: usize, count: usize, root: usize, out: *mut u64, out_words: usize, after: *mut usize,
    ) -> u64;
    pub fn neon_run_block(registers: *mut [u64; 64], records: *const u64, numbers: usize, results: *mut [u64; 2]) -> u64;
    pub fn neon_write_script(
        pool: *const u64, words: usize, count: usize, a: usize, b: usize, buffer: *mut u8, bytes: usize, length: *mut usize,
    ) -> u64;
    pub fn neon_script_length(pool: *const u64, words: usize, count: usize, a: usize, b: usize, length: *mut usize) -> u64;
    pub fn neon_write_lane_script(
        pool: *const u64, words: usize, count: usize, a: usize, b: usize, hi: u64, lo: u64, buffer: *mut u8, bytes: usize, length: *mut usize,
    ) -> u64;
    pub fn neon_lane_script_length(
        pool: *const u64, words: usize, count: usize, a: usize, b: usize, hi: u64, lo: u64, length: *mut usize,
    ) -> u64;
    pub fn neon_question_room(
        first: *const u64, first_words: usize, first_count: usize, second: *const u64, second_words: usize, second_count: usize,
        gates: *mut usize, places: *mut usize,
    ) -> u64;
    pub fn neon_question(
        first: *const u64, first_words: usize, first_count: usize, a: usize, second: *const u64, second_words: usize, second_count: usize, b: usize,
        hi: usize, lo: usize, graph: *mut u64, gates: usize, bits: *mut u64, places: usize, table: *mut u64, entries: usize, count: *mut usize,
        literal: *mut u64,
    ) -> u64;
    pub fn neon_equal(
        first: *const u64, first_words: usize, first_count: usize, a: usize, second: *const u64, second_words: usize, second_count: usize, b: usize,
        hi: usize, lo: usize, refutation: *const u32, refutation_words: usize, graph: *mut u64, gates: usize, bits: *mut u64, places: usize,
        table: *mut u64, entries: usize, marks: *mut u64, mark_places: usize, starts: *mut u64, start_places: usize, step: *mut usize,
    ) -> u64;
}
