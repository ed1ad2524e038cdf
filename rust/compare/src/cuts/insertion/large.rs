//! Large tables, in each slot and at each pivot.
use crate::asked::Asked;
use crate::cuts::calls::INSERT_PIVOT;
use crate::cuts::inputs::edge_record;
use crate::dests::around;
use crate::group::Group;
use crate::table_inputs::{distinct, rising, with};

/// Into each slot of 63 pivots with each sort of edge: keys of which the left half's range goes on,
/// the right half's, and the left half's by the whole of its pivot.
pub fn each_slot(group: &mut Group) {
    let (pivots, others) = (rising(63), distinct(62));
    let sorts: [Option<&[u8]>; 5] = [
        None,
        Some(&[]),
        Some(&[0x43]),
        Some(&[0x44; 63]),
        Some(&[0x45; 64]),
    ];
    for slot in 0..62 {
        let left = 3 * slot as u8;
        for edge in sorts {
            let edges = with(&others, slot, &edge_record(edge));
            for key in [&[0x41, left + 1][..], &[0x41, left + 2], &[0x41, left, 5]] {
                around(group, &INSERT_PIVOT, &[&pivots, &edges, key]);
            }
        }
    }
}

/// Each pivot of 63 and of 64, and a key behind it.
pub fn each_pivot(group: &mut Group) {
    for count in [63, 64] {
        let (pivots, edges) = (rising(count), distinct(count - 1));
        for place in 0..count {
            let pivot = 3 * place as u8;
            for key in [&[0x41, pivot][..], &[0x41, pivot, 0]] {
                for dests in [[0, 0], [65 * 66; 2]] {
                    let slices: [&[u8]; 3] = [&pivots, &edges, key];
                    group.case(&INSERT_PIVOT, &Asked::with_dests(&slices, dests));
                }
            }
        }
    }
}
