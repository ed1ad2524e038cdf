//! The safe wrapper's calls on tables against the reference.
use crate::group::Group;
use crate::inputs::{counted, field_record, record, MAX};
use crate::table_inputs::{usual_edges, usual_pivots};
use crate::wrapper::{into_both, same};

/// One call of the wrapper and of the reference.
macro_rules! both {
    ($group:ident, $slices:expr, $call:ident($($argument:expr),*)) => {
        same(
            $group,
            stringify!($call),
            $slices,
            joistdenim::$call($($argument),*),
            reference::$call($($argument),*),
        )
    };
}

pub fn tables(group: &mut Group) {
    let mut keys = vec![vec![0x41], vec![0x41, 0x30], vec![0x41, 0x33], vec![0x42]];
    keys.extend([0, 64, 65].map(counted));
    for pivots in usual_pivots() {
        let p = &pivots[..];
        both!(group, &[p], wf_pivots(p));
        both!(group, &[p], contains_all_keys(p));
        for e in &usual_edges() {
            both!(group, &[p, e], wf_edges(p, e));
        }
        for place in [0, 1, 2, 3, 63, 64, u64::MAX] {
            both!(group, &[p], get_key(p, place));
        }
        for key in &keys {
            of_key(group, p, key);
        }
    }
    for dest in [131, 132, 133] {
        into_both!(group, dest, init_pivot_table());
    }
}

fn of_key(group: &mut Group, p: &[u8], k: &[u8]) {
    let slices = &[p, k];
    both!(group, slices, bounded_key(p, k));
    both!(group, slices, valid_left_cut_off_key(p, k));
    both!(group, slices, route(p, k));
    both!(group, slices, cutoff_for_left(p, k));
    both!(group, slices, cutoff_for_right(p, k));
    for place in [0, 1, 2, 3, 4, u64::MAX] {
        both!(group, slices, pivot_insertable(p, place, k));
    }
    for right in [record(&[0x41, 0x33]), record(&[0x42]), field_record(MAX)] {
        both!(group, &[p, k, &right], contains_range(p, k, &right));
    }
}
