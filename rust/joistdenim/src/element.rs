//! An element as a value: a key, or max.
use crate::key::Key;
use crate::keys::{compare, pivot_key};
use crate::record::MAX_RECORD;
use crate::refusal::Refusal;
use crate::text::{is_max, TextError, MAX};
use crate::RECORD_SIZE;
use std::cmp::Ordering;
use std::fmt;
use std::str::FromStr;

/// A key, or max, which is above every key. As text it is the key's, or `max`.
///
/// ```
/// use joistdenim::{Element, Key};
///
/// let key: Element = "ff".parse()?;
/// assert!(key < Element::Max);
/// assert_eq!(key, Key::try_from(&[0xFF])?.into());
/// assert_eq!(Element::try_from(&key.record()[..])?, key);
/// # Ok::<(), Box<dyn std::error::Error>>(())
/// ```
#[derive(Clone, Copy, Debug, PartialEq, Eq, Hash)]
pub enum Element {
    /// A key, and no more.
    Key(Key),
    /// What is above every key.
    Max,
}

impl Element {
    /// The record that holds it.
    pub fn record(&self) -> &[u8; RECORD_SIZE] {
        match self {
            Element::Key(key) => key.record(),
            Element::Max => &MAX_RECORD,
        }
    }

    /// The key, or `None` for max.
    pub fn key(&self) -> Option<&Key> {
        match self {
            Element::Key(key) => Some(key),
            Element::Max => None,
        }
    }
}

/// Reads a record. Refuses 1, 2.
impl TryFrom<&[u8]> for Element {
    type Error = Refusal;

    fn try_from(record: &[u8]) -> Result<Self, Refusal> {
        // Max is the only element that has no key.
        match compare(record, &MAX_RECORD)? {
            Ordering::Equal => Ok(Element::Max),
            _ => Ok(Element::Key(Key::try_from(pivot_key(record)?)?)),
        }
    }
}

/// Reads a key, or `max` in letters of either case.
impl FromStr for Element {
    type Err = TextError;

    fn from_str(text: &str) -> Result<Self, TextError> {
        match is_max(text) {
            true => Ok(Element::Max),
            false => text.parse().map(Element::Key),
        }
    }
}

impl fmt::Display for Element {
    fn fmt(&self, f: &mut fmt::Formatter<'_>) -> fmt::Result {
        match self {
            Element::Key(key) => key.fmt(f),
            Element::Max => f.pad(MAX),
        }
    }
}

impl From<Key> for Element {
    fn from(key: Key) -> Self {
        Element::Key(key)
    }
}

impl Ord for Element {
    fn cmp(&self, other: &Self) -> Ordering {
        compare(self.record(), other.record()).expect("both records are elements")
    }
}

impl PartialOrd for Element {
    fn partial_cmp(&self, other: &Self) -> Option<Ordering> {
        Some(self.cmp(other))
    }
}
