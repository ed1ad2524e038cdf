//! A slot's edge as a value.
use crate::key::Key;
use crate::keys::pivot_key;
use crate::record::NO_EDGE_RECORD;
use crate::refusal::Refusal;
use crate::text::{key_of, write_key, TextError, EMPTY_EDGE, NO_EDGE};
use crate::RECORD_SIZE;
use std::fmt;
use std::str::FromStr;

/// What a slot puts in place of its range's prefix, or nothing: then its keys stay as they are.
/// As text a prefix is hexadecimal, the empty one `.`, and no edge `-`.
///
/// ```
/// use joistdenim::{Edge, Key};
///
/// assert_eq!("-".parse(), Ok(Edge::Absent));
/// assert_eq!(".".parse(), Ok(Edge::Prefix(Key::EMPTY)));
/// assert_eq!(Edge::Prefix("43".parse()?).to_string(), "43");
/// # Ok::<(), joistdenim::TextError>(())
/// ```
#[derive(Clone, Copy, Debug, Default, PartialEq, Eq, Hash)]
#[non_exhaustive]
pub enum Edge {
    /// No edge: keys stay as they are.
    #[default]
    Absent,
    /// This in place of the range's prefix; it may be empty.
    Prefix(Key),
}

impl Edge {
    /// The record that holds it.
    pub fn record(&self) -> &[u8; RECORD_SIZE] {
        match self {
            Edge::Absent => &NO_EDGE_RECORD,
            Edge::Prefix(prefix) => prefix.record(),
        }
    }

    /// What is put in place, or `None` where there is no edge.
    pub fn prefix(&self) -> Option<&Key> {
        match self {
            Edge::Absent => None,
            Edge::Prefix(prefix) => Some(prefix),
        }
    }
}

/// Reads a record. Refuses 1, 2.
impl TryFrom<&[u8]> for Edge {
    type Error = Refusal;

    fn try_from(record: &[u8]) -> Result<Self, Refusal> {
        if record == NO_EDGE_RECORD {
            return Ok(Edge::Absent);
        }
        Ok(Edge::Prefix(Key::try_from(pivot_key(record)?)?))
    }
}

impl FromStr for Edge {
    type Err = TextError;

    fn from_str(text: &str) -> Result<Self, TextError> {
        match text {
            NO_EDGE => Ok(Edge::Absent),
            EMPTY_EDGE => Ok(Edge::Prefix(Key::EMPTY)),
            digits => key_of(digits).map(Edge::Prefix),
        }
    }
}

impl fmt::Display for Edge {
    fn fmt(&self, f: &mut fmt::Formatter<'_>) -> fmt::Result {
        match self {
            Edge::Absent => f.pad(NO_EDGE),
            Edge::Prefix(prefix) => write_key(f, prefix, EMPTY_EDGE),
        }
    }
}

impl From<Key> for Edge {
    fn from(prefix: Key) -> Self {
        Edge::Prefix(prefix)
    }
}
