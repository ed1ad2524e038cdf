//! Tables of pivots and edges: their causes 1 to 4, and what is asked of good ones.
use crate::range_prefix::range_prefix;
use crate::record::{edge, element, key, Edge, Element, Record, RECORD_SIZE};
use crate::refusal::{refuse_if, Refusal};

pub const MIN_PIVOTS: usize = 2;
pub const MAX_PIVOTS: usize = 64;

/// Cause 1 of pivots: whole records, 2 to 64 of them.
pub(crate) fn pivot_records(bytes: &[u8]) -> Result<&[Record], Refusal> {
    let (records, rest) = bytes.as_chunks::<RECORD_SIZE>();
    let limits = MIN_PIVOTS..=MAX_PIVOTS;
    refuse_if(
        !rest.is_empty() || !limits.contains(&records.len()),
        Refusal::Shape,
    )?;
    Ok(records)
}

/// Cause 1 of edges: whole records, one fewer than pivots.
pub(crate) fn edge_records<'a>(
    bytes: &'a [u8],
    pivots: &[Record],
) -> Result<&'a [Record], Refusal> {
    let (records, rest) = bytes.as_chunks::<RECORD_SIZE>();
    refuse_if(
        !rest.is_empty() || records.len() + 1 != pivots.len(),
        Refusal::Shape,
    )?;
    Ok(records)
}

/// Cause 2 of pivots: each is a key, and the last may be max.
pub(crate) fn read_pivots(records: &[Record]) -> Result<Vec<Element<'_>>, Refusal> {
    let Some((last, others)) = records.split_last() else {
        return Ok(vec![]);
    };
    let mut pivots = Vec::with_capacity(records.len());
    for record in others {
        pivots.push(Element::Key(key(record)?));
    }
    pivots.push(element(last)?);
    Ok(pivots)
}

/// Cause 2 of edges: each is a key or "no edge".
pub(crate) fn read_edges(records: &[Record]) -> Result<Vec<Edge<'_>>, Refusal> {
    records.iter().map(edge).collect()
}

/// Pivots that rise strictly, at least two of them.
pub(crate) struct Pivots<'a>(Vec<Element<'a>>);

impl<'a> Pivots<'a> {
    /// Cause 3.
    pub(crate) fn rising(pivots: Vec<Element<'a>>) -> Result<Self, Refusal> {
        refuse_if(!pivots.is_sorted_by(|a, b| a < b), Refusal::Unsorted)?;
        Ok(Pivots(pivots))
    }

    /// Cause 4: an edge where the range's prefix is ε.
    pub(crate) fn fit(&self, edges: &[Edge]) -> Result<(), Refusal> {
        let mut slots = edges.iter().enumerate();
        let prefixless = slots.any(|(slot, edge)| match edge {
            Edge::To(_) => self.slot_prefix(slot).is_empty(),
            Edge::Absent => false,
        });
        refuse_if(prefixless, Refusal::EmptyPrefix)
    }

    /// The prefix of a slot's range.
    pub(crate) fn slot_prefix(&self, slot: usize) -> &'a [u8] {
        match self.0[slot] {
            Element::Key(left) => range_prefix(left, self.0[slot + 1]),
            Element::Max => unreachable!("max is no slot's left pivot"),
        }
    }

    pub(crate) fn all(&self) -> &[Element<'a>] {
        &self.0
    }

    pub(crate) fn first(&self) -> Element<'a> {
        self.0[0]
    }

    pub(crate) fn last(&self) -> Element<'a> {
        self.0[self.0.len() - 1]
    }

    pub(crate) fn get(&self, place: u64) -> Option<Element<'a>> {
        self.0.get(usize::try_from(place).ok()?).copied()
    }

    /// ContainsRange: all from the first of these bounds up to the second.
    pub(crate) fn holds(&self, [left, right]: [Element; 2]) -> bool {
        self.first() <= left && right <= self.last()
    }

    /// BoundedKey: not below the first pivot and below the last.
    pub(crate) fn bounds(&self, key: Element) -> bool {
        self.first() <= key && key < self.last()
    }

    /// ValidLeftCutOffKey: above the first pivot and not above the last.
    pub(crate) fn cuts_left(&self, key: Element) -> bool {
        self.first() < key && key <= self.last()
    }

    /// Route: the last place not above, LargestLte, of a bounded key. Cause 5.
    pub(crate) fn route(&self, key: Element) -> Result<usize, Refusal> {
        refuse_if(!self.bounds(key), Refusal::OutOfRange)?;
        let largest_lte = self.0.iter().rposition(|pivot| *pivot <= key);
        largest_lte.ok_or(Refusal::OutOfRange)
    }

    /// CutoffForLeft: the last place below, LargestLt, of a key that cuts left. Cause 5.
    pub(crate) fn cutoff_for_left(&self, key: Element) -> Result<usize, Refusal> {
        refuse_if(!self.cuts_left(key), Refusal::OutOfRange)?;
        let largest_lt = self.0.iter().rposition(|pivot| *pivot < key);
        largest_lt.ok_or(Refusal::OutOfRange)
    }

    /// PivotInsertable: with the key at this place, the pivots would still rise.
    pub(crate) fn take(&self, place: u64, key: Element) -> bool {
        let Ok(place) = usize::try_from(place) else {
            return false;
        };
        if place > self.0.len() {
            return false;
        }
        let (below, above) = self.0.split_at(place);
        below.last().is_none_or(|pivot| *pivot < key) && above.first().is_none_or(|p| key < *p)
    }
}
