//! The C layer's functions of the player strip, as docs/HOST.md has them: the strip is 972 bytes of the caller's.

unsafe extern "C" {
    pub fn pw_strip_new(strip: *mut u8, strip_len: usize) -> u32;
    #[rustfmt::skip]
    pub fn pw_strip_read(
        state: *const u8,
        state_len: usize,
        slots: *const u8,
        slots_len: usize,
        pool: *const u8,
        pool_len: usize,
        books: *const u8,
        books_len: usize,
        strip: *mut u8,
        strip_len: usize,
        numbers: *mut u8,
        numbers_len: usize,
    ) -> u64;
    #[rustfmt::skip]
    pub fn pw_strip_take(
        state: *mut u8,
        state_len: usize,
        slots: *const u8,
        slots_len: usize,
        pool: *const u8,
        pool_len: usize,
        books: *mut u8,
        books_len: usize,
        strip: *mut u8,
        strip_len: usize,
        numbers: *mut u8,
        numbers_len: usize,
    ) -> u64;
}
