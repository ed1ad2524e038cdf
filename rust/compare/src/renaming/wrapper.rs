//! The safe wrapper's calls on renamed ranges, pivots and edges against the reference.
use super::calls::{TRANSLATE_EDGES, TRANSLATE_PIVOTS, TRANSLATE_PIVOT_PAIR};
use crate::call::Kind;
use crate::dests::dests_around;
use crate::group::Group;
use crate::lengths::usual;
use crate::table_inputs::{usual_edges, usual_pivots};
use crate::wrapper::into_both;

pub fn renaming(group: &mut Group) {
    let prefixes: [&[u8]; 5] = [&[], &[0x41], &[0x41, 0x30], &[0x43; 64], &[0x43; 65]];
    let elements = usual(Kind::Record);
    for old in prefixes {
        for new in prefixes {
            for r in &elements {
                for l in [&[0x41, 0x30][..], &[0x42], &[0x41; 64]] {
                    for [dest, _] in dests_around(&TRANSLATE_PIVOT_PAIR, &[l, r, old, new]) {
                        into_both!(group, dest, translate_pivot_pair(l, r, old, new));
                    }
                }
                for p in &usual_pivots() {
                    for [dest, _] in dests_around(&TRANSLATE_PIVOTS, &[p, old, new, r]) {
                        into_both!(group, dest, translate_pivots(p, old, new, r));
                    }
                }
            }
        }
    }
    for p in &usual_pivots() {
        for e in &usual_edges() {
            for [dest, _] in dests_around(&TRANSLATE_EDGES, &[p, e]) {
                into_both!(group, dest, translate_edges(p, e));
            }
        }
    }
}
