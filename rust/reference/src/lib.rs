//! A separate implementation of joistdenim's calls, in plain Rust, written from the words of
//! document 01 and of the change requests. The archive is compared with it; it shares no code with
//! the archive or its wrapper.
//!
//! A call reads its bytes into `Element`, `Edge` and `Entry` values first, and a `?` for each
//! cause stands in the call's order of causes: cause 1 of every argument, then cause 2 of every
//! argument, and so on. The order is 1, 2, 3, 4, 13, 14, 5, 11, 12, 15, 6, 7, 8, 9, 10.
#![forbid(unsafe_code)]

mod buckets;
#[cfg(test)]
mod cut_tests;
mod cuts;
mod entry;
mod image;
mod index;
#[cfg(test)]
mod index_tests;
#[cfg(test)]
mod insert_tests;
#[cfg(test)]
mod join_tests;
mod joining;
mod keys;
mod list;
#[cfg(test)]
mod list_tests;
mod pairs;
mod parent_child;
mod plain_cut;
mod range_prefix;
mod record;
mod refusal;
mod renaming;
mod table;
mod tables;
#[cfg(test)]
mod test_tables;
mod translation;
mod upper_bound;

pub use buckets::{translate_bucket, translate_bucket_will_fit, MAX_ENTRIES};
pub use cuts::{insert_pivot, split_left, split_right};
pub use entry::ENTRY_SIZE;
pub use index::{
    build_index, check_index, cut_index_left, cut_index_right, slot_entries, translate_index,
    PLACE_SIZE,
};
pub use joining::join;
pub use keys::{change_prefix, compare, entry_key, pivot_key, pivot_lcp, shortest_uncommon_prefix};
pub use list::list_table;
pub use pairs::{apply_pair, compose_pairs, reverse_pair, PAIR_SIZE};
pub use parent_child::parent_keys_in_child_range;
pub use plain_cut::{plain_cut, PlainCut};
pub use range_prefix::range_prefix;
pub use record::{Edge, Element, MAX_LEN, RECORD_SIZE};
pub use refusal::Refusal;
pub use renaming::{translate_edges, translate_pivot_pair, translate_pivots};
pub use table::{MAX_PIVOTS, MIN_PIVOTS};
pub use tables::{
    bounded_key, contains_all_keys, contains_range, cutoff_for_left, cutoff_for_right, get_key,
    init_pivot_table, pivot_insertable, route, valid_left_cut_off_key, wf_edges, wf_pivots,
};
pub use translation::{translate, translate_key};
pub use upper_bound::upper_bound;
