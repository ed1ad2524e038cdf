//! The translation of a key in a table: Translate, TranslateKey.
use crate::pairs::{apply, put, Pair};
use crate::record::{Edge, Element};
use crate::refusal::Refusal;
use crate::table::Pivots;
use crate::tables::table_and_key;

/// "The prefix of the slot's range is changed to the slot's edge." No edge: the absent pair.
/// Cause 5.
fn pair_of<'a>(
    pivots: &Pivots<'a>,
    edges: &[Edge<'a>],
    key: Element,
) -> Result<Option<Pair<'a>>, Refusal> {
    let slot = pivots.route(key)?;
    Ok(match edges[slot] {
        Edge::To(new) => Some(Pair {
            old: pivots.slot_prefix(slot),
            new,
        }),
        Edge::Absent => None,
    })
}

/// Writes the pair of the key's slot, a record of 133 bytes, and answers whether it is there.
pub fn translate(
    pivots: &[u8],
    edges: &[u8],
    key: &[u8],
    dest: &mut [u8],
) -> Result<bool, Refusal> {
    let (pivots, edges, element) = table_and_key(pivots, edges, key)?;
    put(pair_of(&pivots, &edges, element)?, dest)
}

/// "In a table, the prefix of the slot's range is changed to the slot's edge. No edge: the key
/// itself." Writes the translated key and answers its length.
pub fn translate_key(
    pivots: &[u8],
    edges: &[u8],
    key: &[u8],
    dest: &mut [u8],
) -> Result<usize, Refusal> {
    let (pivots, edges, element) = table_and_key(pivots, edges, key)?;
    apply(pair_of(&pivots, &edges, element)?, key, dest)
}
