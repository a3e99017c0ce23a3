//! The C interface, as it is. All declarations stand in the one block below: `tests/interface.rs` reads it.
//!
//! A slice is a pointer and its length, which is called as the slice is, with `_len`; the pointer is valid for that length and is not null. `answer`
//! is one array, written only by a call that is accepted. A `u32` result is 0 or the number of a refusal.

unsafe extern "C" {
    // varint
    pub fn smk_read_u64(buf: *const u8, buf_len: usize, pos: usize, answer: *mut [u64; 2]) -> u32;
    pub fn smk_read_i64(buf: *const u8, buf_len: usize, pos: usize, answer: *mut [u64; 2]) -> u32;
    pub fn smk_write_u64(value: u64, out: *mut u8, out_len: usize, answer: *mut [u64; 1]) -> u32;
    pub fn smk_write_i64(value: i64, out: *mut u8, out_len: usize, answer: *mut [u64; 1]) -> u32;
    pub fn smk_u64_len(value: u64) -> u64;
    pub fn smk_i64_len(value: i64) -> u64;
    pub fn smk_zigzag_encode(value: i64) -> u64;
    pub fn smk_zigzag_decode(value: u64) -> i64;

    // utf8
    pub fn smk_utf8_check(bytes: *const u8, bytes_len: usize) -> u32;

    // cell
    pub fn smk_peek_kind(buf: *const u8, buf_len: usize, pos: usize, answer: *mut [u64; 1]) -> u32;
    pub fn smk_peek_rowid(buf: *const u8, buf_len: usize, pos: usize, answer: *mut [u64; 1]) -> u32;
    pub fn smk_encoded_size_at(buf: *const u8, buf_len: usize, pos: usize, answer: *mut [u64; 1]) -> u32;
    pub fn smk_cell_decode(buf: *const u8, buf_len: usize, pos: usize, answer: *mut [u64; 3]) -> u32;
    pub fn smk_cell_value(buf: *const u8, buf_len: usize, pos: usize, column: u64, answer: *mut [u64; 3]) -> u32;
    pub fn smk_cell_encode(
        rowid: i64,
        kinds: *const u8,
        kinds_len: usize,
        words: *const u8,
        words_len: usize,
        data: *const u8,
        data_len: usize,
        out: *mut u8,
        out_len: usize,
        answer: *mut [u64; 1],
    ) -> u32;
    pub fn smk_cell_encoded_len(
        rowid: i64,
        kinds: *const u8,
        kinds_len: usize,
        words: *const u8,
        words_len: usize,
        data: *const u8,
        data_len: usize,
        answer: *mut [u64; 1],
    ) -> u32;

    // overflow
    pub fn smk_overflow_decode(buf: *const u8, buf_len: usize, pos: usize, answer: *mut [u64; 4]) -> u32;
    pub fn smk_overflow_encode(rowid: i64, total: u64, first: u32, out: *mut u8, out_len: usize, answer: *mut [u64; 1]) -> u32;
    pub fn smk_entry_decode(buf: *const u8, buf_len: usize, pos: usize, answer: *mut [u64; 5]) -> u32;

    // interior_page
    pub fn smk_interior_cell_decode(buf: *const u8, buf_len: usize, pos: usize, answer: *mut [u64; 3]) -> u32;
    pub fn smk_interior_cell_encode(divider: i64, child: u32, out: *mut u8, out_len: usize, answer: *mut [u64; 1]) -> u32;
}
