//! Keys of 0 to 64 bytes in order: safe calls of `libjoistdenim.a`.
//!
//! A record has 66 bytes: a length field of two bytes, high byte first, and 64 bytes, zero after
//! the key. Length 0 to 64 is a key, 65,534 "no edge", 65,535 "max". A key or prefix argument is
//! lent as its bytes alone. A pair, an old prefix and a new one, has 133 bytes. An entry is a record
//! with a key and a number of four bytes, high byte first; an index has a place of two bytes, high
//! byte first, for each pivot. Every call answers `Ok`, or the first refusal that applies over all
//! arguments, in the order in which the call names them; a refusal changes no byte of a destination.
//!
//! `Key`, `Element`, `Edge`, `Table`, `Bucket` and `Pair` are such bytes as values. They are checked
//! when they are made, and have the calls as methods; all but a pair are read and printed as text.
//!
//! ```
//! let mut dest = [0; joistdenim::MAX_LEN];
//! let length = joistdenim::change_prefix(&[0x41, 0x30], &[0x41], &[0x43], &mut dest)?;
//! assert_eq!(dest[..length], [0x43, 0x30]);
//! # Ok::<(), joistdenim::Refusal>(())
//! ```

#![deny(missing_docs)]

mod bucket;
mod buckets;
mod conversions;
mod cuts;
mod edge;
mod element;
mod faults;
mod index;
mod joining;
mod key;
mod keys;
mod lend;
mod lines;
mod list;
mod list_text;
mod pair;
mod pairs;
mod parent_child;
pub mod raw;
mod record;
mod refusal;
mod renaming;
mod table;
mod tables;
mod text;
mod translation;

pub use bucket::{Bucket, Entry, Number};
pub use buckets::{translate_bucket, translate_bucket_will_fit};
pub use cuts::{insert_pivot, split_left, split_right};
pub use edge::Edge;
pub use element::Element;
pub use index::{
    build_index, check_index, cut_index_left, cut_index_right, slot_entries, translate_index,
};
pub use joining::join;
pub use key::Key;
pub use keys::{change_prefix, compare, entry_key, pivot_key, pivot_lcp, shortest_uncommon_prefix};
pub use lines::ListError;
pub use list::list_table;
pub use list_text::ShortForm;
pub use pair::Pair;
pub use pairs::{apply_pair, compose_pairs, reverse_pair};
pub use parent_child::parent_keys_in_child_range;
pub use refusal::Refusal;
pub use renaming::{translate_edges, translate_pivot_pair, translate_pivots};
pub use table::{RecordPlace, Slot, Table};
pub use tables::{
    bounded_key, contains_all_keys, contains_range, cutoff_for_left, cutoff_for_right, get_key,
    init_pivot_table, pivot_insertable, route, valid_left_cut_off_key, wf_edges, wf_pivots,
};
pub use text::{from_hex, TextError};
pub use translation::{translate, translate_key};

/// The longest key, in bytes.
pub const MAX_LEN: usize = 64;
/// The bytes of a record.
pub const RECORD_SIZE: usize = 66;
/// The fewest pivots of a table.
pub const MIN_PIVOTS: usize = 2;
/// The most pivots of a table.
pub const MAX_PIVOTS: usize = 64;
/// The bytes of an entry's number.
pub const NUMBER_SIZE: usize = size_of::<Number>();
/// The bytes of an entry: a record with a key, and a number.
pub const ENTRY_SIZE: usize = RECORD_SIZE + NUMBER_SIZE;
/// The most entries of a bucket.
pub const MAX_ENTRIES: usize = 512;
/// The bytes of a place in an index.
pub const PLACE_SIZE: usize = 2;
/// The bytes of a pair: a flag, two lengths of two bytes, and two prefixes in 64 bytes each.
pub const PAIR_SIZE: usize = pair::NEW_AT + MAX_LEN;
/// The bytes of the longest list of a table.
pub const MAX_LIST: usize = 32_715;
