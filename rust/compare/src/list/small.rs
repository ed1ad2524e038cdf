//! All small tables with each sort of edge in each slot; and T and the largest table with every
//! length and every count.
use super::dests::around;
use crate::cuts::small::each_table;
use crate::group::Group;
use crate::list_inputs::{counted_as, joined};
use crate::table_inputs::{absent, edges_of_t, pivots_of_t, rising};

pub fn all_edges(group: &mut Group) {
    each_of_all_edges(|input| around(group, input));
}

pub fn cut_short(group: &mut Group) {
    each_cut_short(|input| around(group, input));
}

/// Some slots have an edge over an empty prefix: 4.
pub fn each_of_all_edges(mut body: impl FnMut(&[u8])) {
    let edges: [&[u8]; 4] = [&[], &[0x0A], &[0x44; 63], &[0xEF; 64]];
    each_table(&edges, |table, _| {
        body(&joined(&table.pivots, &table.edges))
    });
}

/// Every length up to two records more than the table has, and every count up to 70 and some
/// large ones.
pub fn each_cut_short(mut body: impl FnMut(&[u8])) {
    for (pivots, edges) in [(pivots_of_t(), edges_of_t()), (rising(64), absent(63))] {
        let mut longer = joined(&pivots, &edges);
        longer.extend(absent(2));
        for len in 0..=longer.len() {
            body(&longer[..len]);
        }
        let large = [0x0103, 0x0140, 0x0300, 0x4000, 0x7FFF, 0x8000, 0xFFFF];
        for count in (0..=70).chain(large) {
            body(&counted_as(count, &pivots, &edges));
        }
    }
}
