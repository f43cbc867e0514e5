//! The C layer's functions as docs/HOST.md has them: a slice crosses as a pointer and then a length in bytes. Those of the strip stand
//! in `strip_sys`.

pub use crate::strip_sys::*;

unsafe extern "C" {
    #[rustfmt::skip]
    pub fn pw_new(
        state: *mut u8,
        state_len: usize,
        slots: *const u8,
        slots_len: usize,
        pool: *const u8,
        pool_len: usize,
        books: *mut u8,
        books_len: usize,
        kinds: *const u8,
        kinds_len: usize,
        target: u32,
        rows: u32,
        queue: u32,
        lists: u32,
        numbers: u32,
    ) -> u32;
    #[rustfmt::skip]
    pub fn pw_push_batch(
        state: *mut u8,
        state_len: usize,
        slots: *mut u8,
        slots_len: usize,
        pool: *mut u8,
        pool_len: usize,
        books: *mut u8,
        books_len: usize,
        records: *const u8,
        records_len: usize,
        body: *const u8,
        body_len: usize,
        rows: u32,
    ) -> u32;
    #[rustfmt::skip]
    pub fn pw_finish_buffered_batch(
        state: *mut u8,
        state_len: usize,
        slots: *mut u8,
        slots_len: usize,
        pool: *const u8,
        pool_len: usize,
        books: *mut u8,
        books_len: usize,
    ) -> u32;
    #[rustfmt::skip]
    pub fn pw_next_completed_batch(
        state: *mut u8,
        state_len: usize,
        slots: *const u8,
        slots_len: usize,
        pool: *const u8,
        pool_len: usize,
        books: *mut u8,
        books_len: usize,
    ) -> u64;
    #[rustfmt::skip]
    pub fn pw_register_buffer(
        state: *const u8,
        state_len: usize,
        slots: *const u8,
        slots_len: usize,
        pool: *mut u8,
        pool_len: usize,
        books: *mut u8,
        books_len: usize,
        bytes: *const u8,
        bytes_len: usize,
        capacity: u32,
    ) -> u64;
    #[rustfmt::skip]
    pub fn pw_let_go(
        state: *const u8,
        state_len: usize,
        slots: *const u8,
        slots_len: usize,
        pool: *const u8,
        pool_len: usize,
        books: *mut u8,
        books_len: usize,
        buffer: u32,
    ) -> u32;
    #[rustfmt::skip]
    pub fn pw_buffer_refusal(
        state: *const u8,
        state_len: usize,
        slots: *const u8,
        slots_len: usize,
        pool: *const u8,
        pool_len: usize,
        books: *const u8,
        books_len: usize,
        buffer: u32,
    ) -> u32;
    #[rustfmt::skip]
    pub fn pw_read_buffer(
        state: *const u8,
        state_len: usize,
        slots: *const u8,
        slots_len: usize,
        pool: *const u8,
        pool_len: usize,
        books: *const u8,
        books_len: usize,
        buffer: u32,
        out: *mut u8,
        out_len: usize,
    ) -> u64;
    #[rustfmt::skip]
    pub fn pw_read_row(
        state: *const u8,
        state_len: usize,
        slots: *const u8,
        slots_len: usize,
        pool: *const u8,
        pool_len: usize,
        books: *const u8,
        books_len: usize,
        column: u32,
        row: u32,
        out: *mut u8,
        out_len: usize,
    ) -> u32;
    #[rustfmt::skip]
    pub fn pw_front_batch(
        state: *const u8,
        state_len: usize,
        slots: *const u8,
        slots_len: usize,
        pool: *const u8,
        pool_len: usize,
        books: *const u8,
        books_len: usize,
        out: *mut u8,
        out_len: usize,
    ) -> u64;
    pub fn pw_set_biggest_coalesce_batch_size(state: *mut u8, state_len: usize, set: u32, rows: u32) -> u32;
    pub fn pw_biggest_coalesce_batch_size(state: *const u8, state_len: usize) -> u64;
    pub fn pw_get_buffered_rows(state: *const u8, state_len: usize) -> u32;
    pub fn pw_has_completed_batch(state: *const u8, state_len: usize) -> u32;
    pub fn pw_is_empty(state: *const u8, state_len: usize) -> u32;
}
