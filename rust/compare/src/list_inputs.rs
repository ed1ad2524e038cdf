//! Inputs of the list.
use crate::table_inputs::{usual_edges, usual_pivots};

/// An input with this count.
pub fn counted_as(count: u16, pivots: &[u8], edges: &[u8]) -> Vec<u8> {
    [&count.to_be_bytes()[..], pivots, edges].concat()
}

/// An input with the count of the whole pivots.
pub fn joined(pivots: &[u8], edges: &[u8]) -> Vec<u8> {
    counted_as((pivots.len() / 66) as u16, pivots, edges)
}

/// Good and bad inputs: T's list, and texts with 1, 2, 3 and 4.
pub fn usual_inputs() -> Vec<Vec<u8>> {
    let mut inputs = vec![vec![], vec![0], vec![0, 3]];
    for pivots in &usual_pivots() {
        inputs.extend(usual_edges().iter().map(|edges| joined(pivots, edges)));
    }
    inputs
}
