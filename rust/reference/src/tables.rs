//! The calls on tables: checks, questions, GetKey, the first table, routing.
use crate::record::{element, one_record, short, Edge, Element, RECORD_SIZE};
use crate::refusal::{refuse_if, Refusal};
use crate::table::{edge_records, pivot_records, read_edges, read_pivots, Pivots, MIN_PIVOTS};

/// Causes 1 to 3 of pivots alone.
fn pivots_of(bytes: &[u8]) -> Result<Pivots<'_>, Refusal> {
    Pivots::rising(read_pivots(pivot_records(bytes)?)?)
}

/// Causes 1 to 3 of pivots and a key; 2 of the key comes before 3.
fn pivots_and_key<'a>(
    bytes: &'a [u8],
    key: &'a [u8],
) -> Result<(Pivots<'a>, Element<'a>), Refusal> {
    let pivots = read_pivots(pivot_records(bytes)?)?;
    let key = Element::Key(short(key)?);
    Ok((Pivots::rising(pivots)?, key))
}

/// Causes 1 to 4 of pivots, edges and a key; 2 of the key comes before 3.
pub(crate) fn table_and_key<'a>(
    pivots: &'a [u8],
    edges: &'a [u8],
    key: &'a [u8],
) -> Result<(Pivots<'a>, Vec<Edge<'a>>, Element<'a>), Refusal> {
    let pivots = pivot_records(pivots)?;
    let edges = edge_records(edges, pivots)?;
    let (pivots, edges) = (read_pivots(pivots)?, read_edges(edges)?);
    let key = Element::Key(short(key)?);
    let pivots = Pivots::rising(pivots)?;
    pivots.fit(&edges)?;
    Ok((pivots, edges, key))
}

/// WFPivots: yes, or the number.
pub fn wf_pivots(pivots: &[u8]) -> Result<(), Refusal> {
    pivots_of(pivots)?;
    Ok(())
}

/// WFEdges: yes, or the number.
pub fn wf_edges(pivots: &[u8], edges: &[u8]) -> Result<(), Refusal> {
    table_and_key(pivots, edges, &[])?;
    Ok(())
}

/// Whether the table goes from ε to max.
pub fn contains_all_keys(pivots: &[u8]) -> Result<bool, Refusal> {
    let pivots = pivots_of(pivots)?;
    Ok(pivots.first() == Element::Key(&[]) && pivots.last() == Element::Max)
}

/// Whether the table's range holds the range from left up to right.
pub fn contains_range(pivots: &[u8], left: &[u8], right: &[u8]) -> Result<bool, Refusal> {
    let (pivots, right) = (pivot_records(pivots)?, one_record(right)?);
    let pivots = read_pivots(pivots)?;
    let (left, right) = (Element::Key(short(left)?), element(right)?);
    let pivots = Pivots::rising(pivots)?;
    refuse_if(left >= right, Refusal::NotBelow)?;
    Ok(pivots.holds([left, right]))
}

/// BoundedKey: whether the key is in the table's range.
pub fn bounded_key(pivots: &[u8], key: &[u8]) -> Result<bool, Refusal> {
    let (pivots, key) = pivots_and_key(pivots, key)?;
    Ok(pivots.bounds(key))
}

/// ValidLeftCutOffKey: whether a left cut takes the key.
pub fn valid_left_cut_off_key(pivots: &[u8], key: &[u8]) -> Result<bool, Refusal> {
    let (pivots, key) = pivots_and_key(pivots, key)?;
    Ok(pivots.cuts_left(key))
}

/// PivotInsertable: whether the key may stand as a new pivot at this place.
pub fn pivot_insertable(pivots: &[u8], place: u64, key: &[u8]) -> Result<bool, Refusal> {
    let (pivots, key) = pivots_and_key(pivots, key)?;
    Ok(pivots.take(place, key))
}

/// GetKey: the key at a place of the table.
pub fn get_key(pivots: &[u8], place: u64) -> Result<&[u8], Refusal> {
    match pivots_of(pivots)?.get(place) {
        Some(Element::Key(key)) => Ok(key),
        Some(Element::Max) | None => Err(Refusal::NoSuchSlot),
    }
}

/// InitPivotTable: writes the first table, ε and max, and answers 2.
pub fn init_pivot_table(dest: &mut [u8]) -> Result<usize, Refusal> {
    let table = dest
        .get_mut(..MIN_PIVOTS * RECORD_SIZE)
        .ok_or(Refusal::NoRoom)?;
    let (first, last) = table.split_at_mut(RECORD_SIZE);
    Element::Key(&[]).put(first)?;
    Element::Max.put(last)?;
    Ok(MIN_PIVOTS)
}

/// Route: the slot of a key, the last pivot not above it.
pub fn route(pivots: &[u8], key: &[u8]) -> Result<usize, Refusal> {
    let (pivots, key) = pivots_and_key(pivots, key)?;
    pivots.route(key)
}

/// CutoffForLeft: the slot that a left cut at the key ends in, the last pivot below it.
pub fn cutoff_for_left(pivots: &[u8], key: &[u8]) -> Result<usize, Refusal> {
    let (pivots, key) = pivots_and_key(pivots, key)?;
    pivots.cutoff_for_left(key)
}

/// CutoffForRight: the slot that a right cut at the key begins in, which is the key's.
pub fn cutoff_for_right(pivots: &[u8], key: &[u8]) -> Result<usize, Refusal> {
    route(pivots, key)
}
