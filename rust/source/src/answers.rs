//! What the archive answers where the source's functions were asked, in the program's words.
mod buckets;
mod pairs;
mod ranges;
mod tables;

pub use buckets::*;
pub use pairs::*;
pub use ranges::*;
pub use tables::*;

use crate::inputs::Inputs;
use joistdenim::{Refusal, ENTRY_SIZE, PLACE_SIZE, RECORD_SIZE};
use joistdenim::{MAX_ENTRIES, MAX_LEN, MAX_PIVOTS, PAIR_SIZE};

pub type Answer = Result<String, Refusal>;

/// What a destination holds before a call. Each has room for the longest result.
const FILL: u8 = 0xA5;

fn key_room() -> [u8; MAX_LEN] {
    [FILL; MAX_LEN]
}

fn pair_room() -> [u8; PAIR_SIZE] {
    [FILL; PAIR_SIZE]
}

fn records_room() -> Vec<u8> {
    vec![FILL; MAX_PIVOTS * RECORD_SIZE]
}

fn entries_room() -> Vec<u8> {
    vec![FILL; MAX_ENTRIES * ENTRY_SIZE]
}

fn places_room(pivots: usize) -> Vec<u8> {
    vec![FILL; pivots * PLACE_SIZE]
}

/// Where the source names a place or an edge that isn't there, which no right body does.
fn nothing_there() -> Answer {
    Ok("nothing-there".to_string())
}

/// An old prefix and a new one.
fn prefixes(inputs: &Inputs) -> (Vec<u8>, Vec<u8>) {
    (inputs.key("prefix"), inputs.key("newPrefix"))
}
