//! Destinations around a whole bucket and around what is kept of it.
use super::calls::{TRANSLATE_BUCKET, TRANSLATE_BUCKET_WILL_FIT};
use crate::asked::Asked;
use crate::group::Group;
use crate::inputs::ENTRY_SIZE;

/// Their lengths: none, and exactly enough, a byte short and room to spare, for the whole bucket
/// and for the entries that are kept.
pub fn lengths_around([bucket, prefix, new_prefix]: [&[u8]; 3]) -> Vec<usize> {
    let mut dest = vec![0; bucket.len()];
    let kept = reference::translate_bucket(bucket, prefix, new_prefix, &mut dest);
    let kept = kept.unwrap_or(0) * ENTRY_SIZE;
    let around = |len: usize| [len.saturating_sub(1), len, len + 7];
    let mut lengths = [around(kept), around(bucket.len())].concat();
    lengths.push(0);
    lengths.sort_unstable();
    lengths.dedup();
    lengths
}

/// The call with a destination of this length, and the question whether it will fit.
pub fn both(group: &mut Group, slices: [&[u8]; 3], dest: usize) {
    group.compare(&TRANSLATE_BUCKET, &slices, dest);
    let asked = Asked::new(&slices, dest as u64, 0);
    group.case(&TRANSLATE_BUCKET_WILL_FIT, &asked);
}

/// Both calls for each of these lengths.
pub fn around(group: &mut Group, slices: [&[u8]; 3]) {
    for dest in lengths_around(slices) {
        both(group, slices, dest);
    }
}
