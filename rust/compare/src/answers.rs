//! What the archive leaves, called through the safe wrapper, or the number of its refusal; for
//! laws between the answers of several calls.
use crate::inputs::{ENTRY_SIZE, MAX_ENTRIES};
use crate::pair_inputs::{PairRecord, ABSENT};
use joistdenim::Refusal;

/// As many things of this size as the call counts, with room for the most there may be.
fn counted(
    most: usize,
    size: usize,
    call: impl FnOnce(&mut [u8]) -> Result<usize, Refusal>,
) -> Result<Vec<u8>, u32> {
    let mut dest = vec![0; most * size];
    let count = call(&mut dest).map_err(Refusal::number)?;
    dest.truncate(count * size);
    Ok(dest)
}

/// The bytes of a key.
pub fn key(call: impl FnOnce(&mut [u8]) -> Result<usize, Refusal>) -> Result<Vec<u8>, u32> {
    counted(64, 1, call)
}

pub fn records(call: impl FnOnce(&mut [u8]) -> Result<usize, Refusal>) -> Result<Vec<u8>, u32> {
    counted(64, 66, call)
}

pub fn entries(call: impl FnOnce(&mut [u8]) -> Result<usize, Refusal>) -> Result<Vec<u8>, u32> {
    counted(MAX_ENTRIES, ENTRY_SIZE, call)
}

pub fn pair(call: impl FnOnce(&mut [u8]) -> Result<bool, Refusal>) -> Result<PairRecord, u32> {
    let mut dest = ABSENT;
    call(&mut dest).map_err(Refusal::number)?;
    Ok(dest)
}
