//! The index beside a bucket whose keys rise strictly, each in the range of a table. It has a
//! place of two bytes, high byte first, for each pivot: how many entries have a key below it. So
//! slot i has the entries from place i up to, but without, place i + 1; a slot without entries has
//! the place where the next one begins; and the last place is the total.
use crate::lend::lend;
use crate::raw;
use crate::refusal::Refusal;
use crate::{ENTRY_SIZE, PLACE_SIZE};

/// Writes the index, two bytes for each pivot; answers the total.
/// Refuses 1, 2, 3, 14, 5 (of an entry), 10.
///
/// ```
/// use joistdenim::{build_index, check_index, slot_entries, Refusal, ENTRY_SIZE, RECORD_SIZE};
///
/// fn record(key: &[u8]) -> Vec<u8> {
///     let mut record = vec![0; RECORD_SIZE];
///     record[1] = key.len() as u8;
///     record[2..2 + key.len()].copy_from_slice(key);
///     record
/// }
///
/// // Slots from 41, 42 and 43 on, up to 44, and the entries 41 and 43 30, numbered 7 and 9.
/// let pivots = [0x41, 0x42, 0x43, 0x44].map(|byte| record(&[byte])).concat();
/// let (first, last) = (record(&[0x41]), record(&[0x43, 0x30]));
/// let bucket = [first, vec![0, 0, 0, 7], last, vec![0, 0, 0, 9]].concat();
/// let mut index = [0; 8];
/// assert_eq!(build_index(&pivots, &bucket, &mut index)?, 2);
/// assert_eq!(index, [0, 0, 0, 1, 0, 1, 0, 2]);
///
/// assert_eq!(check_index(&pivots, &bucket, &index)?, 2);
/// assert_eq!(slot_entries(&pivots, &bucket, &index, 1)?, []);
/// assert_eq!(slot_entries(&pivots, &bucket, &index, 2)?, &bucket[ENTRY_SIZE..]);
/// assert_eq!(check_index(&pivots, &bucket, &index[2..]), Err(Refusal::WrongIndex));
/// # Ok::<(), joistdenim::Refusal>(())
/// ```
pub fn build_index(pivots: &[u8], bucket: &[u8], dest: &mut [u8]) -> Result<usize, Refusal> {
    let total = lend!(raw::jd_build_index, pivots, bucket; dest)?;
    Ok(total as usize)
}

/// Whether the index is the one that `build_index` writes: the total, or the refusal.
/// Refuses 1, 2, 3, 14, 5 (of an entry), 15 (of another length, too).
pub fn check_index(pivots: &[u8], bucket: &[u8], index: &[u8]) -> Result<usize, Refusal> {
    let total = lend!(raw::jd_check_index, pivots, bucket, index;)?;
    Ok(total as usize)
}

/// The entries of a slot, a part of the bucket. Refuses 1, 2, 3, 14, 5, 15, 6.
pub fn slot_entries<'a>(
    pivots: &[u8],
    bucket: &'a [u8],
    index: &[u8],
    slot: u64,
) -> Result<&'a [u8], Refusal> {
    let count = lend!(raw::jd_slot_entries, pivots, bucket, index; ; slot)?;
    // The index was accepted: it has the slot's place, and so many entries follow that.
    let at = slot as usize * PLACE_SIZE;
    let place = u16::from_be_bytes([index[at], index[at + 1]]);
    Ok(&bucket[usize::from(place) * ENTRY_SIZE..][..count as usize * ENTRY_SIZE])
}

/// Cuts off what lies from the key on: writes the entries below the key, and the index that they
/// have by the table that `split_left` makes, of the pivots below the key and the key. Answers the
/// total written. Refuses 1, 2, 3, 14, 5 (of an entry or the key), 15, 10.
pub fn cut_index_left(
    pivots: &[u8],
    bucket: &[u8],
    index: &[u8],
    key: &[u8],
    dest_bucket: &mut [u8],
    dest_index: &mut [u8],
) -> Result<usize, Refusal> {
    let total = lend!(
        raw::jd_cut_index_left, pivots, bucket, index, key; dest_bucket, dest_index
    )?;
    Ok(total as usize)
}

/// Cuts off what lies below the key: writes the entries not below it, and the index that they have
/// by the table that `split_right` makes, of the key and the pivots above it. Its first place is 0.
/// Answers the total written. Refuses 1, 2, 3, 14, 5 (of an entry or the key), 15, 10.
///
/// ```
/// use joistdenim::{build_index, cut_index_left, cut_index_right, init_pivot_table};
/// use joistdenim::{ENTRY_SIZE, RECORD_SIZE};
///
/// // One slot, of all keys, and the entries 41, 42 and 43.
/// let mut pivots = [0; 2 * RECORD_SIZE];
/// init_pivot_table(&mut pivots)?;
/// let mut bucket = [0; 3 * ENTRY_SIZE];
/// for (entry, byte) in bucket.chunks_mut(ENTRY_SIZE).zip(0x41..) {
///     entry[..3].copy_from_slice(&[0, 1, byte]);
/// }
/// let mut index = [0; 4];
/// build_index(&pivots, &bucket, &mut index)?;
///
/// // The cuts at 42 have each entry exactly once.
/// let (mut left, mut left_index) = ([0; ENTRY_SIZE], [0; 4]);
/// let (mut right, mut right_index) = ([0; 2 * ENTRY_SIZE], [0; 4]);
/// cut_index_left(&pivots, &bucket, &index, &[0x42], &mut left, &mut left_index)?;
/// cut_index_right(&pivots, &bucket, &index, &[0x42], &mut right, &mut right_index)?;
/// assert_eq!([&left[..], &right].concat(), bucket);
/// assert_eq!((left_index, right_index), ([0, 0, 0, 1], [0, 0, 0, 2]));
/// # Ok::<(), joistdenim::Refusal>(())
/// ```
pub fn cut_index_right(
    pivots: &[u8],
    bucket: &[u8],
    index: &[u8],
    key: &[u8],
    dest_bucket: &mut [u8],
    dest_index: &mut [u8],
) -> Result<usize, Refusal> {
    let total = lend!(
        raw::jd_cut_index_right, pivots, bucket, index, key; dest_bucket, dest_index
    )?;
    Ok(total as usize)
}

/// Writes what `translate_bucket` makes of the whole bucket, and the places where what is kept of
/// each of these slots then begins, and the total, which it answers. The places belong to the old
/// slots in turn, not to another table. Refuses 1, 2, 3, 14, 5, 15, 8 (of any entry kept), 10.
pub fn translate_index(
    pivots: &[u8],
    bucket: &[u8],
    index: &[u8],
    prefix: &[u8],
    new_prefix: &[u8],
    dest_bucket: &mut [u8],
    dest_index: &mut [u8],
) -> Result<usize, Refusal> {
    let total = lend!(
        raw::jd_translate_index, pivots, bucket, index, prefix, new_prefix;
        dest_bucket, dest_index
    )?;
    Ok(total as usize)
}
