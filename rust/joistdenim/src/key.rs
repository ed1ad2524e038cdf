//! A key as a value.
use crate::keys::{change_prefix, compare};
use crate::record::{Record, KEY_AT};
use crate::refusal::Refusal;
use crate::text::{key_of, write_key, TextError, EMPTY_KEY};
use crate::RECORD_SIZE;
use std::cmp::Ordering;
use std::fmt;
use std::str::FromStr;

/// A key or prefix of at most 64 bytes, ordered as the library orders keys. It is its record, and
/// so equal keys have equal bytes.
///
/// As text it is hexadecimal, and the empty key `-`, as in the list of a table.
///
/// ```
/// use joistdenim::{Key, Refusal, MAX_LEN};
///
/// let key: Key = "413107".parse()?;
/// assert_eq!(key.as_bytes(), [0x41, 0x31, 0x07]);
/// assert!(key < Key::try_from(b"A2")?);
/// assert_eq!(Key::EMPTY.to_string(), "-");
/// assert_eq!(Key::try_from(&[0; MAX_LEN + 1]), Err(Refusal::Malformed));
/// # Ok::<(), Box<dyn std::error::Error>>(())
/// ```
#[derive(Clone, Copy, PartialEq, Eq, Hash)]
pub struct Key(Record);

impl Key {
    /// The key of no bytes, which is below every other.
    pub const EMPTY: Key = Key([0; RECORD_SIZE]);

    /// Its bytes alone, as the calls on slices are lent a key.
    pub fn as_bytes(&self) -> &[u8] {
        // No length is over 64, so its low byte is all of it.
        &self.0[KEY_AT..][..usize::from(self.0[1])]
    }

    /// The record that holds it, as pivots and edges have them.
    pub fn record(&self) -> &[u8; RECORD_SIZE] {
        &self.0
    }

    /// How many bytes it has, 0 to 64.
    pub fn len(&self) -> usize {
        self.as_bytes().len()
    }

    /// Whether it is the key of no bytes.
    pub fn is_empty(&self) -> bool {
        *self == Key::EMPTY
    }

    /// The key that a call writes and answers the length of.
    pub(crate) fn written(
        call: impl FnOnce(&mut [u8]) -> Result<usize, Refusal>,
    ) -> Result<Self, Refusal> {
        let mut record = [0; RECORD_SIZE];
        let length = call(&mut record[KEY_AT..])?;
        record[1] = length as u8;
        Ok(Key(record))
    }

    /// The key itself, with the new prefix in place of the old one. Refuses 7, 8.
    pub fn change_prefix(&self, old: &Key, new: &Key) -> Result<Self, Refusal> {
        let (key, old, new) = (self.as_bytes(), old.as_bytes(), new.as_bytes());
        Key::written(|dest| change_prefix(key, old, new, dest))
    }
}

/// Takes the key's bytes alone. Refuses 2, more than 64 of them.
impl TryFrom<&[u8]> for Key {
    type Error = Refusal;

    fn try_from(bytes: &[u8]) -> Result<Self, Refusal> {
        // With nothing changed to nothing it is itself.
        Key::written(|dest| change_prefix(bytes, &[], &[], dest))
    }
}

/// Reads hexadecimal of either case; `-` and no digit at all are the empty key.
impl FromStr for Key {
    type Err = TextError;

    fn from_str(text: &str) -> Result<Self, TextError> {
        match text {
            EMPTY_KEY => Ok(Key::EMPTY),
            digits => key_of(digits),
        }
    }
}

impl fmt::Display for Key {
    fn fmt(&self, f: &mut fmt::Formatter<'_>) -> fmt::Result {
        write_key(f, self, EMPTY_KEY)
    }
}

impl fmt::Debug for Key {
    fn fmt(&self, f: &mut fmt::Formatter<'_>) -> fmt::Result {
        write!(f, "Key({self})")
    }
}

impl Ord for Key {
    fn cmp(&self, other: &Self) -> Ordering {
        compare(&self.0, &other.0).expect("a key's record is an element")
    }
}

impl PartialOrd for Key {
    fn partial_cmp(&self, other: &Self) -> Option<Ordering> {
        Some(self.cmp(other))
    }
}

impl AsRef<[u8]> for Key {
    fn as_ref(&self) -> &[u8] {
        self.as_bytes()
    }
}

impl Default for Key {
    fn default() -> Self {
        Key::EMPTY
    }
}
