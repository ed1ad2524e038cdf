//! A table with its edges as a value.
use crate::cuts::{insert_pivot, split_left, split_right};
use crate::edge::Edge;
use crate::element::Element;
use crate::joining::join;
use crate::key::Key;
use crate::keys::{pivot_key, pivot_lcp};
use crate::list::list_table;
use crate::pair::Pair;
use crate::record::Record;
use crate::refusal::Refusal;
use crate::tables::{bounded_key, contains_all_keys, init_pivot_table, route, wf_edges};
use crate::translation::translate_key;
use crate::{MAX_LEN, MAX_PIVOTS, RECORD_SIZE};
use std::fmt;

/// Why a call that refuses 1 to 4 alone doesn't.
const WELL_FORMED: &str = "the table was checked when it was made";

/// The bytes of the count that the list program's input begins with.
const COUNT_SIZE: usize = 2;

/// The bytes of a list's line of names, and the most of a slot's line: a number of two digits, four
/// keys and what follows each field. Few tables are near the longest list.
const LIST_HEAD: usize = "slot\tleft\tright\tshared\tedge\n".len();
const MAX_LIST_LINE: usize = 2 + 4 * 2 * MAX_LEN + 5;

/// A well-formed table: 2 to 64 pivots that rise strictly, and the edges of the slots between
/// them. The library has checked it when it was made, and checks it again in each call.
///
/// As bytes it is the list program's input: the count of the pivots in two bytes, high byte first,
/// the pivots and the edges. As text it is its list; `FromStr` says what else it reads.
///
/// ```
/// use joistdenim::{Key, Table};
///
/// // T, in the short form: each slot's left bound and edge, and the end of the last.
/// let t: Table = "4130 43\n4135 -\n42\n".parse()?;
/// let key: Key = "413107".parse()?;
/// assert_eq!(t.translate_key(&key)?.to_string(), "433107");
///
/// // Cut off what lies from 41 32 on. What is kept is translated as before.
/// let cut = t.split_left(&"4132".parse()?)?;
/// assert_eq!(cut.to_string(), "slot\tleft\tright\tshared\tedge\n0\t4130\t4132\t41\t43\n");
/// assert_eq!(cut.translate_key(&key)?, t.translate_key(&key)?);
/// # Ok::<(), Box<dyn std::error::Error>>(())
/// ```
#[derive(Clone, PartialEq, Eq, Hash)]
pub struct Table {
    pivots: Vec<u8>,
    edges: Vec<u8>,
}

/// A slot of a table: its number from 0, its bounds, what all its keys begin with, and its edge.
#[derive(Clone, Copy, Debug, PartialEq, Eq, Hash)]
pub struct Slot {
    /// Its number, from 0.
    pub number: usize,
    /// Its lower bound, which is in it.
    pub left: Key,
    /// Its upper bound, which isn't.
    pub right: Element,
    /// The prefix that all its keys share.
    pub shared: Key,
    /// What replaces that prefix.
    pub edge: Edge,
}

/// A record of a table, the pivots and the edges each counted from 0.
#[derive(Clone, Copy, Debug, PartialEq, Eq, Hash)]
pub enum RecordPlace {
    /// So many pivots stand before it.
    Pivot(usize),
    /// So many edges stand before it.
    Edge(usize),
}

impl Table {
    /// The table of these pivots and edges. Refuses 1, 2, 3, 4.
    pub fn new(pivots: &[Element], edges: &[Edge]) -> Result<Self, Refusal> {
        let (pivots, edges) = records_of(pivots, edges);
        wf_edges(&pivots, &edges)?;
        Ok(Table { pivots, edges })
    }

    /// The table of these records, as the calls on slices are lent them. Refuses 1, 2, 3, 4.
    pub fn from_records(pivots: &[u8], edges: &[u8]) -> Result<Self, Refusal> {
        wf_edges(pivots, edges)?;
        Ok(Table {
            pivots: pivots.to_vec(),
            edges: edges.to_vec(),
        })
    }

    /// The table of the list program's input, which is what `to_bytes` gives. Refuses 1 (bytes that
    /// are missing or follow, too), 2, 3, 4.
    pub fn from_bytes(input: &[u8]) -> Result<Self, Refusal> {
        let (pivots, edges) = Table::split_input(input).ok_or(Refusal::Shape)?;
        Table::from_records(pivots, edges)
    }

    /// The records of the pivots, by their count, and of the edges in the list program's input;
    /// where bytes are missing, those that are there. None where the count is missing.
    pub fn split_input(input: &[u8]) -> Option<(&[u8], &[u8])> {
        let (count, records) = input.split_first_chunk::<COUNT_SIZE>()?;
        let pivots = usize::from(u16::from_be_bytes(*count)) * RECORD_SIZE;
        Some(records.split_at(pivots.min(records.len())))
    }

    /// Where these records are at fault, if they are refused with 2, 3 or 4: at the first one that
    /// is malformed or has a wrong mark, pivots before edges; at the upper one of the first two
    /// pivots that don't rise; at the first edge over an empty prefix.
    pub fn refused_record(pivots: &[u8], edges: &[u8]) -> Option<RecordPlace> {
        match wf_edges(pivots, edges).err()? {
            Refusal::Malformed => malformed(pivots, edges),
            Refusal::Unsorted => {
                refused_slot(pivots, edges).map(|slot| RecordPlace::Pivot(slot + 1))
            }
            Refusal::EmptyPrefix => refused_slot(pivots, edges).map(RecordPlace::Edge),
            _ => None,
        }
    }

    /// The first table: one slot, of all keys, without an edge.
    pub fn first() -> Self {
        let first = written(|pivots, edges| {
            edges[..RECORD_SIZE].copy_from_slice(Edge::Absent.record());
            init_pivot_table(pivots)
        });
        first.expect("there is room")
    }

    /// The records of the pivots and those of the edges, to be lent to the calls on slices.
    pub fn records(&self) -> (&[u8], &[u8]) {
        (&self.pivots, &self.edges)
    }

    /// The count of the pivots, the pivots and the edges: the list program's input.
    pub fn to_bytes(&self) -> Vec<u8> {
        let count = (self.slots().len() + 1) as u16;
        [&count.to_be_bytes()[..], &self.pivots, &self.edges].concat()
    }

    /// The pivots, in order.
    pub fn pivots(&self) -> impl ExactSizeIterator<Item = Element> + '_ {
        let pivots = self.pivots.chunks(RECORD_SIZE).map(Element::try_from);
        pivots.map(|pivot| pivot.expect(WELL_FORMED))
    }

    /// The edges, one for each slot.
    pub fn edges(&self) -> impl ExactSizeIterator<Item = Edge> + '_ {
        let edges = self.edges.chunks(RECORD_SIZE).map(Edge::try_from);
        edges.map(|edge| edge.expect(WELL_FORMED))
    }

    /// The slots, from the lowest on.
    pub fn slots(&self) -> impl ExactSizeIterator<Item = Slot> + '_ {
        (0..self.edges.len() / RECORD_SIZE).map(|number| self.slot(number))
    }

    pub(crate) fn slot(&self, number: usize) -> Slot {
        let slot = || -> Result<Slot, Refusal> {
            let left = Key::try_from(pivot_key(record_at(&self.pivots, number))?)?;
            let right = Element::try_from(record_at(&self.pivots, number + 1))?;
            Ok(Slot {
                number,
                left,
                right,
                shared: Key::try_from(pivot_lcp(left.as_bytes(), right.record())?)?,
                edge: Edge::try_from(record_at(&self.edges, number))?,
            })
        };
        slot().expect(WELL_FORMED)
    }

    /// Whether the table goes from the empty key to max.
    pub fn contains_all_keys(&self) -> bool {
        contains_all_keys(&self.pivots).expect(WELL_FORMED)
    }

    /// Whether the key is not below the first pivot and below the last.
    pub fn bounded_key(&self, key: &Key) -> bool {
        bounded_key(&self.pivots, key.as_bytes()).expect(WELL_FORMED)
    }

    /// The slot that the key lies in. Refuses 5.
    pub fn route(&self, key: &Key) -> Result<Slot, Refusal> {
        let number = route(&self.pivots, key.as_bytes())?;
        Ok(self.slot(number))
    }

    /// The pair of the key's slot, from the shared prefix to the edge. Refuses 5.
    pub fn translate(&self, key: &Key) -> Result<Pair, Refusal> {
        Pair::of_key(&self.pivots, &self.edges, key.as_bytes())
    }

    /// The key with its slot's edge in place of the prefix, or the key itself where there is no
    /// edge. Refuses 5, 8.
    pub fn translate_key(&self, key: &Key) -> Result<Key, Refusal> {
        Key::written(|dest| translate_key(&self.pivots, &self.edges, key.as_bytes(), dest))
    }

    /// What lies below the key. Refuses 5, 8.
    pub fn split_left(&self, key: &Key) -> Result<Self, Refusal> {
        let (p, e, key) = (&self.pivots, &self.edges, key.as_bytes());
        written(|pivots, edges| split_left(p, e, key, pivots, edges))
    }

    /// What lies from the key on. Refuses 5, 8.
    pub fn split_right(&self, key: &Key) -> Result<Self, Refusal> {
        let (p, e, key) = (&self.pivots, &self.edges, key.as_bytes());
        written(|pivots, edges| split_right(p, e, key, pivots, edges))
    }

    /// The table with the key as a pivot more. Refuses 5, 11, 12, 8.
    pub fn insert_pivot(&self, key: &Key) -> Result<Self, Refusal> {
        let (p, e, key) = (&self.pivots, &self.edges, key.as_bytes());
        written(|pivots, edges| insert_pivot(p, e, key, pivots, edges))
    }

    /// This table and then the other, which begins with the pivot that this one ends with.
    /// Refuses 13, 12.
    pub fn join(&self, second: &Table) -> Result<Self, Refusal> {
        let (a, b) = (self.records(), second.records());
        written(|pivots, edges| join(a.0, a.1, b.0, b.1, pivots, edges))
    }
}

pub(crate) fn record_at(records: &[u8], place: usize) -> &[u8] {
    &records[place * RECORD_SIZE..][..RECORD_SIZE]
}

fn malformed(pivots: &[u8], edges: &[u8]) -> Option<RecordPlace> {
    let last = pivots.len() / RECORD_SIZE - 1;
    let mut pivots = pivots.chunks(RECORD_SIZE).enumerate();
    let pivot = pivots.position(|(place, pivot)| match place == last {
        true => Element::try_from(pivot).is_err(),
        false => pivot_key(pivot).is_err(),
    });
    let mut edges = edges.chunks(RECORD_SIZE).map(Edge::try_from);
    let edge = edges.position(|edge| edge.is_err());
    pivot
        .map(RecordPlace::Pivot)
        .or(edge.map(RecordPlace::Edge))
}

/// The first slot that is refused as the whole is, as a table of its own.
fn refused_slot(pivots: &[u8], edges: &[u8]) -> Option<usize> {
    let whole = wf_edges(pivots, edges);
    let bounds = pivots.windows(2 * RECORD_SIZE).step_by(RECORD_SIZE);
    let mut slots = bounds.zip(edges.chunks(RECORD_SIZE));
    slots.position(|(bounds, edge)| wf_edges(bounds, edge) == whole)
}

/// The records of pivots and edges.
pub(crate) fn records_of(pivots: &[Element], edges: &[Edge]) -> (Vec<u8>, Vec<u8>) {
    let pivots: Vec<Record> = pivots.iter().map(|pivot| *pivot.record()).collect();
    let edges: Vec<Record> = edges.iter().map(|edge| *edge.record()).collect();
    (pivots.into_flattened(), edges.into_flattened())
}

/// The table that a call writes and answers the pivots of.
fn written(
    call: impl FnOnce(&mut [u8], &mut [u8]) -> Result<usize, Refusal>,
) -> Result<Table, Refusal> {
    let mut pivots = vec![0; MAX_PIVOTS * RECORD_SIZE];
    let mut edges = vec![0; (MAX_PIVOTS - 1) * RECORD_SIZE];
    let count = call(&mut pivots, &mut edges)?;
    pivots.truncate(count * RECORD_SIZE);
    edges.truncate((count - 1) * RECORD_SIZE);
    Ok(Table { pivots, edges })
}

/// As by `from_bytes`.
impl TryFrom<&[u8]> for Table {
    type Error = Refusal;

    fn try_from(input: &[u8]) -> Result<Self, Refusal> {
        Table::from_bytes(input)
    }
}

/// The list of the table, as `list_table` writes it.
impl fmt::Display for Table {
    fn fmt(&self, f: &mut fmt::Formatter<'_>) -> fmt::Result {
        let mut text = vec![0; LIST_HEAD + self.slots().len() * MAX_LIST_LINE];
        let length = list_table(&self.to_bytes(), &mut text).expect("there is room for any list");
        f.write_str(std::str::from_utf8(&text[..length]).expect("a list is ASCII"))
    }
}

impl fmt::Debug for Table {
    fn fmt(&self, f: &mut fmt::Formatter<'_>) -> fmt::Result {
        f.debug_list().entries(self.slots()).finish()
    }
}
