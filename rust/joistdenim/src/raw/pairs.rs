//! The calls on pairs.

extern "C" {
    /// The call [`reverse_pair`](crate::reverse_pair).
    pub fn jd_reverse_pair(
        pair: *const u8,
        pair_len: usize,
        dest_pair: *mut u8,
        dest_pair_len: usize,
        there: *mut u64,
    ) -> u32;

    /// The call [`apply_pair`](crate::apply_pair).
    pub fn jd_apply_pair(
        pair: *const u8,
        pair_len: usize,
        key: *const u8,
        key_len: usize,
        dest: *mut u8,
        dest_len: usize,
        length: *mut u64,
    ) -> u32;

    /// The call [`compose_pairs`](crate::compose_pairs).
    pub fn jd_compose_pairs(
        pair_a: *const u8,
        pair_a_len: usize,
        pair_b: *const u8,
        pair_b_len: usize,
        dest_pair: *mut u8,
        dest_pair_len: usize,
        there: *mut u64,
    ) -> u32;
}
