//! The calls on single keys.

extern "C" {
    /// The call [`compare`](crate::compare).
    pub fn jd_compare(
        a: *const u8,
        a_len: usize,
        b: *const u8,
        b_len: usize,
        order: *mut i64,
    ) -> u32;

    /// The call [`pivot_key`](crate::pivot_key).
    pub fn jd_pivot_key(record: *const u8, record_len: usize, length: *mut u64) -> u32;

    /// The call [`entry_key`](crate::entry_key).
    pub fn jd_entry_key(entry: *const u8, entry_len: usize, length: *mut u64) -> u32;

    /// The call [`change_prefix`](crate::change_prefix).
    pub fn jd_change_prefix(
        key: *const u8,
        key_len: usize,
        old_prefix: *const u8,
        old_prefix_len: usize,
        new_prefix: *const u8,
        new_prefix_len: usize,
        dest: *mut u8,
        dest_len: usize,
        length: *mut u64,
    ) -> u32;

    /// The call [`pivot_lcp`](crate::pivot_lcp).
    pub fn jd_pivot_lcp(
        left: *const u8,
        left_len: usize,
        right: *const u8,
        right_len: usize,
        length: *mut u64,
    ) -> u32;

    /// The call [`shortest_uncommon_prefix`](crate::shortest_uncommon_prefix).
    pub fn jd_shortest_uncommon_prefix(
        prefix: *const u8,
        prefix_len: usize,
        dest: *mut u8,
        dest_len: usize,
        written: *mut u64,
    ) -> u32;
}
