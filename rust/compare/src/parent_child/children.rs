//! Children around the range of a parent's slot.
use crate::cuts::inputs::Table;
use crate::inputs::{field_record, record, Xorshift, MAX};
use crate::table_inputs::with;

/// The slot's bounds under its edge, two records, by the reference; as they are where there is no
/// edge or where a bound is too long.
fn bounds(table: &Table, slot: usize) -> Vec<u8> {
    let as_it_is = &table.pivots[66 * slot..][..132];
    let edge = &table.edges[66 * slot..][..66];
    let Ok(edge) = reference::pivot_key(edge) else {
        return as_it_is.to_vec();
    };
    let (left, right) = (&table.keys[slot], &as_it_is[66..]);
    let mut dest = vec![0; 132];
    match reference::translate_pivot_pair(left, right, table.prefix(slot), edge, &mut dest) {
        Ok(_) => dest,
        Err(_) => as_it_is.to_vec(),
    }
}

/// A key a little below or above, of at most 64 bytes.
fn beside(random: &mut Xorshift, key: &[u8]) -> [u8; 66] {
    let mut key = key.to_vec();
    match random.below(3) {
        0 => key.truncate(key.len().saturating_sub(1)),
        1 => key.push(0),
        _ => {
            if let Some(last) = key.last_mut() {
                *last = last.wrapping_sub(1);
            }
        }
    }
    key.truncate(64);
    record(&key)
}

/// A child whose range is just the slot's, or begins or ends a little before or after; with a
/// pivot between now and then.
pub fn child(random: &mut Xorshift, table: &Table, slot: usize) -> Vec<u8> {
    let mut child = bounds(table, slot);
    for place in [0, 1] {
        let pivot = &child[66 * place..][..66];
        if random.one_in(2) {
            continue;
        }
        if let Ok(key) = reference::pivot_key(pivot) {
            child = with(&child, place, &beside(random, key));
        }
    }
    if random.one_in(4) {
        child.extend(field_record(MAX));
    }
    child
}
