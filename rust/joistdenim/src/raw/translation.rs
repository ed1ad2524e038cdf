//! The translation of a key, and the pair of its slot.

extern "C" {
    /// The call [`translate_key`](crate::translate_key).
    pub fn jd_translate_key(
        pivots: *const u8,
        pivots_len: usize,
        edges: *const u8,
        edges_len: usize,
        key: *const u8,
        key_len: usize,
        dest: *mut u8,
        dest_len: usize,
        length: *mut u64,
    ) -> u32;

    /// The call [`translate`](crate::translate).
    pub fn jd_translate(
        pivots: *const u8,
        pivots_len: usize,
        edges: *const u8,
        edges_len: usize,
        key: *const u8,
        key_len: usize,
        dest_pair: *mut u8,
        dest_pair_len: usize,
        there: *mut u64,
    ) -> u32;
}
