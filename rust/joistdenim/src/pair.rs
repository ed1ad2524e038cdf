//! A pair as a value.
use crate::pairs::{apply_pair, compose_pairs, reverse_pair};
use crate::record::LENGTH_SIZE;
use crate::refusal::Refusal;
use crate::translation::translate;
use crate::{MAX_LEN, PAIR_SIZE};
use std::fmt;

/// Where the record of a pair has its prefixes: behind the flag and both lengths.
const OLD_AT: usize = 1 + 2 * LENGTH_SIZE;
pub(crate) const NEW_AT: usize = OLD_AT + MAX_LEN;

/// A change of prefix: a key that begins with the old prefix gets the new one in its place. Or
/// the absent pair, which changes nothing.
///
/// It is its record, with zeros wherever nothing is looked at; so equal pairs have equal bytes.
///
/// ```
/// use joistdenim::{Pair, MAX_LEN};
///
/// let a = Pair::new(&[0x41], &[0x50])?;
/// let b = Pair::new(&[0x41, 0x30], &[0x60, 0x01])?;
/// // c undoes b and then does a: from 60 01 back to 41 30, and on to 50 30.
/// let c = a.compose(&b)?;
/// assert_eq!(c.prefixes(), Some((&[0x60, 0x01][..], &[0x50, 0x30][..])));
///
/// let mut dest = [0; MAX_LEN];
/// let length = c.apply(&[0x60, 0x01, 0x07], &mut dest)?;
/// assert_eq!(dest[..length], [0x50, 0x30, 0x07]);
/// assert_eq!(Pair::ABSENT.compose(&b)?, b.reversed());
/// # Ok::<(), joistdenim::Refusal>(())
/// ```
#[derive(Clone, Copy, PartialEq, Eq, Hash)]
pub struct Pair([u8; PAIR_SIZE]);

impl Pair {
    /// The absent pair.
    pub const ABSENT: Pair = Pair([0; PAIR_SIZE]);

    /// The pair from an old prefix to a new one. Refuses 2, a prefix over 64 bytes.
    pub fn new(old: &[u8], new: &[u8]) -> Result<Self, Refusal> {
        if old.len() > MAX_LEN || new.len() > MAX_LEN {
            return Err(Refusal::Malformed);
        }
        let mut record = [0; PAIR_SIZE];
        record[0] = 1;
        record[2] = old.len() as u8;
        record[4] = new.len() as u8;
        record[OLD_AT..][..old.len()].copy_from_slice(old);
        record[NEW_AT..][..new.len()].copy_from_slice(new);
        Ok(Pair(record))
    }

    /// The pair of the key's slot, absent where the slot has no edge. Refuses 1, 2, 3, 4, 5.
    pub fn of_key(pivots: &[u8], edges: &[u8], key: &[u8]) -> Result<Self, Refusal> {
        written(|record| translate(pivots, edges, key, record))
    }

    /// The old and the new prefix, or `None` for the absent pair.
    pub fn prefixes(&self) -> Option<(&[u8], &[u8])> {
        // No length is over 64, so its low byte is all of it.
        let [there, _, old, _, new, ..] = self.0;
        let prefix = |at: usize, length| &self.0[at..][..usize::from(length)];
        (there == 1).then(|| (prefix(OLD_AT, old), prefix(NEW_AT, new)))
    }

    /// Its record, as the calls on slices are lent it.
    pub fn as_bytes(&self) -> &[u8; PAIR_SIZE] {
        &self.0
    }

    /// The pair with old and new prefix swapped.
    pub fn reversed(&self) -> Self {
        let reversed = written(|record| reverse_pair(&self.0, record));
        reversed.expect("the pair is well formed, and there is room")
    }

    /// Writes the key with the new prefix in place of the old one; answers its length.
    /// Refuses 2, 7, 8, 10.
    pub fn apply(&self, key: &[u8], dest: &mut [u8]) -> Result<usize, Refusal> {
        apply_pair(&self.0, key, dest)
    }

    /// The pair that undoes `b` and then does this one. Refuses 7, 8.
    pub fn compose(&self, b: &Pair) -> Result<Self, Refusal> {
        written(|record| compose_pairs(&self.0, &b.0, record))
    }
}

/// The pair that a call writes.
fn written(call: impl FnOnce(&mut [u8]) -> Result<bool, Refusal>) -> Result<Pair, Refusal> {
    let mut record = [0; PAIR_SIZE];
    call(&mut record)?;
    Ok(Pair(record))
}

/// Reads a record. Refuses 1, 2.
impl TryFrom<&[u8]> for Pair {
    type Error = Refusal;

    fn try_from(record: &[u8]) -> Result<Self, Refusal> {
        // Composed with the absent pair it is itself, with zeros where nothing is looked at.
        written(|dest| compose_pairs(record, &Pair::ABSENT.0, dest))
    }
}

impl From<Pair> for [u8; PAIR_SIZE] {
    fn from(pair: Pair) -> Self {
        pair.0
    }
}

impl Default for Pair {
    fn default() -> Self {
        Pair::ABSENT
    }
}

impl fmt::Debug for Pair {
    fn fmt(&self, f: &mut fmt::Formatter<'_>) -> fmt::Result {
        match self.prefixes() {
            Some((old, new)) => write!(f, "Pair({old:02x?} to {new:02x?})"),
            None => write!(f, "Pair(absent)"),
        }
    }
}
