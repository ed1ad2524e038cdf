//! The archive's functions as C sees them; `include/joistdenim.h` says what each does.
//!
//! Each returns 0 or a refusal's number and answers through its last pointer. The pointers must
//! not be null and must be good for their lengths, and what is written overlaps nothing else.

mod buckets;
mod cuts;
mod index;
mod joining;
mod keys;
mod list;
mod pairs;
mod parent_child;
mod renaming;
mod tables;
mod translation;
pub use buckets::*;
pub use cuts::*;
pub use index::*;
pub use joining::*;
pub use keys::*;
pub use list::*;
pub use pairs::*;
pub use parent_child::*;
pub use renaming::*;
pub use tables::*;
pub use translation::*;
