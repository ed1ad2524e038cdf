//! What a call is lent: slices to read and room to write.
use joistdenim::{ENTRY_SIZE, MAX_ENTRIES};
use std::rc::Rc;

/// What a call is lent to read. A table is shared by the inputs that ask for different keys.
pub type Slices<const S: usize> = [Rc<[u8]>; S];
/// Where it writes.
pub type Dests<const D: usize> = [Box<[u8]>; D];

/// A full bucket, which is longer than any table and its list.
pub const ROOM: usize = MAX_ENTRIES * ENTRY_SIZE;

pub fn room<const D: usize>() -> Dests<D> {
    std::array::from_fn(|_| vec![0; ROOM].into())
}
