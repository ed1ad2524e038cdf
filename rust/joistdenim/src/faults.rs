//! Why bytes are no table or no bucket, in words for people: which record is at fault, where it
//! begins, and what is wrong with it. That it is at fault is the library's answer; its bytes are
//! looked at only to say why.
use crate::bucket::Bucket;
use crate::element::Element;
use crate::keys::entry_key;
use crate::record::{KEY_AT, MAX, NO_EDGE};
use crate::refusal::Refusal;
use crate::table::{record_at, RecordPlace, Table};
use crate::tables::wf_edges;
use crate::{ENTRY_SIZE, MAX_LEN, RECORD_SIZE};

/// What a record is, which decides the marks that it may have.
#[derive(Clone, Copy, PartialEq)]
enum Kind {
    /// A pivot that isn't the last, or an entry's record: a key alone.
    Key,
    LastPivot,
    Edge,
}

impl Table {
    /// What is wrong with the list program's input where it is refused with 2, 3 or 4: the pivot or
    /// edge, counted from 0, the byte of the input that it begins at, and why it is refused. None
    /// for a table, and where the input is refused with 1.
    ///
    /// ```
    /// use joistdenim::Table;
    ///
    /// let mut input = Table::first().to_bytes();
    /// assert_eq!(Table::why_refused(&input), None);
    /// input[3] = 65;
    /// let reason = "pivot 0 at byte 2: its length field is 65, and a key has at most 64 bytes";
    /// assert_eq!(Table::why_refused(&input).as_deref(), Some(reason));
    /// ```
    pub fn why_refused(input: &[u8]) -> Option<String> {
        let (pivots, edges) = Table::split_input(input)?;
        let refusal = wf_edges(pivots, edges).err()?;
        let place = Table::refused_record(pivots, edges)?;
        let head = input.len() - pivots.len() - edges.len();
        let last = (pivots.len() / RECORD_SIZE).saturating_sub(1);
        let (name, at, kind) = match place {
            RecordPlace::Pivot(place) => {
                let kind = if place == last {
                    Kind::LastPivot
                } else {
                    Kind::Key
                };
                (format!("pivot {place}"), head + place * RECORD_SIZE, kind)
            }
            RecordPlace::Edge(slot) => {
                let at = head + pivots.len() + slot * RECORD_SIZE;
                (format!("edge {slot}"), at, Kind::Edge)
            }
        };
        let reason = match refusal {
            Refusal::Malformed => malformed(input, at, kind),
            _ => no_table(place, |place| {
                Element::try_from(record_at(pivots, place)).ok()
            }),
        };
        Some(format!("{name} at byte {at}: {reason}"))
    }
}

impl Bucket {
    /// What is wrong with a bucket's bytes where they are refused with 2: the entry, counted from
    /// 0, the byte that it begins at, and why it is refused. None for a bucket, and where the bytes
    /// are refused with 1.
    ///
    /// ```
    /// use joistdenim::{Bucket, ENTRY_SIZE};
    ///
    /// let mut bytes = [0; ENTRY_SIZE];
    /// assert_eq!(Bucket::why_refused(&bytes), None);
    /// bytes[9] = 0xA0;
    /// let reason = "entry 0 at byte 0: byte 9 is a0, and all bytes behind a key of length 0 are 00";
    /// assert_eq!(Bucket::why_refused(&bytes).as_deref(), Some(reason));
    /// ```
    pub fn why_refused(bytes: &[u8]) -> Option<String> {
        let refusal = Bucket::try_from(bytes).err()?;
        if refusal != Refusal::Malformed {
            return None;
        }
        let mut entries = bytes.chunks(ENTRY_SIZE);
        let place = entries.position(|entry| entry_key(entry).is_err())?;
        let at = place * ENTRY_SIZE;
        let reason = malformed(bytes, at, Kind::Key);
        Some(format!("entry {place} at byte {at}: {reason}"))
    }
}

/// Why the record that begins at this byte is malformed, or has a mark that it may not have.
fn malformed(bytes: &[u8], at: usize, kind: Kind) -> String {
    let record = &bytes[at..][..RECORD_SIZE];
    let field = u16::from_be_bytes([record[0], record[1]]);
    match field {
        MAX if kind != Kind::LastPivot => {
            "it has the mark max, which only a table's last pivot can have".into()
        }
        NO_EDGE if kind != Kind::Edge => {
            "it has the mark \"no edge\", which only an edge can have".into()
        }
        MAX => not_zero(record, at, 0, "the mark max"),
        NO_EDGE => not_zero(record, at, 0, "the mark \"no edge\""),
        length if usize::from(length) > MAX_LEN => {
            format!("its length field is {length}, and a key has at most {MAX_LEN} bytes")
        }
        length => {
            let behind = format!("a key of length {length}");
            not_zero(record, at, length.into(), &behind)
        }
    }
}

/// The first byte that isn't 0 behind so many of the key.
fn not_zero(record: &[u8], at: usize, length: usize, behind: &str) -> String {
    let rest = (KEY_AT + length)..RECORD_SIZE;
    let place = rest.into_iter().find(|place| record[*place] != 0);
    match place {
        Some(place) => format!(
            "byte {} is {:02x}, and all bytes behind {behind} are 00",
            at + place,
            record[place]
        ),
        None => "it is malformed".into(),
    }
}

/// Why records that are good each for itself are no table: the two pivots that don't rise, or the
/// bounds of a slot that can have no edge.
pub(crate) fn no_table(place: RecordPlace, pivot: impl Fn(usize) -> Option<Element>) -> String {
    let pivot = |place| pivot(place).map_or(String::new(), |pivot| pivot.to_string());
    match place {
        RecordPlace::Pivot(upper) => format!(
            "pivots don't rise strictly: {} isn't above {}, which comes before it",
            pivot(upper),
            pivot(upper.saturating_sub(1))
        ),
        RecordPlace::Edge(slot) => format!(
            "an edge where shared is empty: keys from {} up to {} share nothing",
            pivot(slot),
            pivot(slot + 1)
        ),
    }
}
