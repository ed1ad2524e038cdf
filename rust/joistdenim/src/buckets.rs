//! Buckets under another prefix. A bucket is 0 to 512 entries, in any order; keys may be equal.
use crate::lend::lend;
use crate::raw;
use crate::refusal::Refusal;

/// Writes the entries whose key begins with the prefix, in their order, with the prefix changed
/// and the number as it was; the others are passed over. Answers how many are written. The
/// destination must hold these alone: with none kept, an empty one will do. Refuses 1, 2, 8, 10.
///
/// ```
/// use joistdenim::{entry_key, translate_bucket, ENTRY_SIZE};
///
/// // 42 and 41 30, with 43 in place of 41.
/// let mut bucket = [0; 2 * ENTRY_SIZE];
/// bucket[..3].copy_from_slice(&[0, 1, 0x42]);
/// bucket[ENTRY_SIZE..][..4].copy_from_slice(&[0, 2, 0x41, 0x30]);
/// let mut dest = [0; ENTRY_SIZE];
/// let kept = translate_bucket(&bucket, &[0x41], &[0x43], &mut dest)?;
/// assert_eq!(kept, 1);
/// assert_eq!(entry_key(&dest)?, [0x43, 0x30]);
/// # Ok::<(), joistdenim::Refusal>(())
/// ```
pub fn translate_bucket(
    bucket: &[u8],
    prefix: &[u8],
    new_prefix: &[u8],
    dest: &mut [u8],
) -> Result<usize, Refusal> {
    let kept = lend!(raw::jd_translate_bucket, bucket, prefix, new_prefix; dest)?;
    Ok(kept as usize)
}

/// Whether `translate_bucket` takes these with a destination of so many bytes: no exactly where it
/// would refuse 8 or 10. Refuses 1, 2.
pub fn translate_bucket_will_fit(
    bucket: &[u8],
    prefix: &[u8],
    new_prefix: &[u8],
    dest_len: u64,
) -> Result<bool, Refusal> {
    let yes = lend!(raw::jd_translate_bucket_will_fit, bucket, prefix, new_prefix; ; dest_len)?;
    Ok(yes == 1)
}
