//! The list of a table, as text: "The shelf list".
use crate::record::{Edge, Element, RECORD_SIZE};
use crate::refusal::Refusal;
use crate::table::Pivots;
use crate::tables::table_and_key;

/// "Keys are lower-case hexadecimal" and "ε is `-`".
fn key_text(key: &[u8]) -> String {
    match key {
        [] => "-".to_string(),
        _ => key.iter().map(|byte| format!("{byte:02x}")).collect(),
    }
}

/// "max is `max`".
fn element_text(element: Element) -> String {
    match element {
        Element::Key(key) => key_text(key),
        Element::Max => "max".to_string(),
    }
}

/// W6: "Write an empty edge as a single `.` in the last column. No edge stays `-`".
fn edge_text(edge: Edge) -> String {
    match edge {
        Edge::To([]) => ".".to_string(),
        Edge::To(prefix) => key_text(prefix),
        Edge::Absent => "-".to_string(),
    }
}

/// "The pivot count in two bytes, high byte first, then pivots, then edges. Missing or extra
/// bytes are 1." Then causes 2 to 4.
fn table(input: &[u8]) -> Result<(Pivots<'_>, Vec<Edge<'_>>), Refusal> {
    let (count, records) = input.split_first_chunk().ok_or(Refusal::Shape)?;
    let pivots = usize::from(u16::from_be_bytes(*count)) * RECORD_SIZE;
    let (pivots, edges) = records.split_at_checked(pivots).ok_or(Refusal::Shape)?;
    let (pivots, edges, _) = table_and_key(pivots, edges, &[])?;
    Ok((pivots, edges))
}

/// "A header and one line a slot, fields parted by tabs".
fn list(input: &[u8]) -> Result<String, Refusal> {
    let (pivots, edges) = table(input)?;
    let mut text = "slot\tleft\tright\tshared\tedge\n".to_string();
    for (slot, edge) in edges.into_iter().enumerate() {
        let left = element_text(pivots.all()[slot]);
        let right = element_text(pivots.all()[slot + 1]);
        let shared = key_text(pivots.slot_prefix(slot));
        let edge = edge_text(edge);
        text += &format!("{slot}\t{left}\t{right}\t{shared}\t{edge}\n");
    }
    Ok(text)
}

/// Writes the list, or "`refused`, a tab and the number", and answers the text's length: cause 10
/// alone is a refusal of the call.
pub fn list_table(input: &[u8], dest: &mut [u8]) -> Result<usize, Refusal> {
    let refused = |refusal: Refusal| format!("refused\t{}\n", refusal.number());
    let text = list(input).unwrap_or_else(refused);
    let head = dest.get_mut(..text.len()).ok_or(Refusal::NoRoom)?;
    head.copy_from_slice(text.as_bytes());
    Ok(text.len())
}
