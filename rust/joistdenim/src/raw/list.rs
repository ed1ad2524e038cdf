//! The list of a table.

extern "C" {
    /// The call [`list_table`](crate::list_table).
    pub fn jd_list_table(
        input: *const u8,
        input_len: usize,
        dest: *mut u8,
        dest_len: usize,
        length: *mut u64,
    ) -> u32;
}
