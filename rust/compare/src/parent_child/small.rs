//! All small parents with each sort of edge in each slot, and small children; children with each
//! fault.
use super::calls::PARENT_KEYS_IN_CHILD_RANGE;
use crate::asked::Asked;
use crate::cuts::small::{each_edges, tables as small_tables, SHARED};
use crate::group::Group;
use crate::inputs::{field_record, record, Record, MAX};
use crate::lengths::choices;
use crate::table_inputs::{absent, edges_of_t, pivots_of_t, rising, with};
use crate::tables::faults::{each_count, each_fault};

fn each_slot(group: &mut Group, slices: [&[u8]; 3], slots: impl IntoIterator<Item = u64>) {
    for slot in slots {
        let dest = 0;
        let asked = Asked::new(&slices, slot, dest);
        group.case(&PARENT_KEYS_IN_CHILD_RANGE, &asked);
    }
}

/// Bounds of the small children: around the edges and the pivots of the small parents, and max.
fn bounds() -> Vec<Record> {
    let keys: [&[u8]; 9] = [
        &[],
        &[0x01, 0x00],
        &[0x41],
        &[0x43],
        &[0x43, 0x41],
        &[0x43, 0xFF],
        &[0x44],
        &[0xFF, 0x41, 0x00],
        &[0xFF, 0xFF],
    ];
    let records = keys.map(record).into_iter();
    records.chain([field_record(MAX)]).collect()
}

pub fn tables(group: &mut Group) {
    let bounds = bounds();
    let edges: [&[u8]; 3] = [&[], &[0x43], &[0xFF]];
    for shared in SHARED {
        for mut table in small_tables(shared) {
            each_edges(&mut table, &edges, |table| {
                for (i, left) in bounds.iter().enumerate() {
                    for right in &bounds[i + 1..] {
                        let child = [*left, *right].concat();
                        let slices: [&[u8]; 3] = [&table.pivots, &table.edges, &child];
                        each_slot(group, slices, 0..table.slots() as u64);
                    }
                }
            });
        }
    }
}

/// Children and parents of bounds in any order.
pub fn unsorted(group: &mut Group) {
    let bounds = bounds();
    let (t, edges) = (pivots_of_t(), edges_of_t());
    for a in &bounds {
        for b in &bounds {
            let pair = [*a, *b].concat();
            each_slot(group, [&t, &edges, &pair], 0..3);
            for c in &bounds {
                let table = [*a, *b, *c].concat();
                each_slot(group, [&t, &edges, &table], 0..3);
                each_slot(group, [&table, &edges, &t], 0..3);
                each_slot(group, [&table, &absent(2), &pair], 0..3);
            }
        }
    }
}

/// A good parent and bad ones, with each count of child pivots and each fault among them.
pub fn child(group: &mut Group) {
    let (t, edges) = (pivots_of_t(), edges_of_t());
    let parents = vec![t.clone(), with(&t, 1, &t[..66]), t[1..].to_vec()];
    let edges = vec![edges.clone(), with(&edges, 1, &field_record(MAX))];
    let mut with_child = |child| {
        let slices = [parents.clone(), edges.clone(), vec![child]];
        choices(group, &PARENT_KEYS_IN_CHILD_RANGE, &slices, &[[0, 0]]);
    };
    each_count(&mut with_child);
    each_fault(&mut with_child);
}

/// Every slot of 63, with and without an edge, over pivots that share a prefix.
pub fn each_edge(group: &mut Group) {
    let pivots = rising(64);
    let child = [record(&[0x41]), record(&[0x43, 0x20])].concat();
    for place in 0..63 {
        for edge in [&[0x43][..], &[], &[0x43; 63], &[0x43; 64]] {
            let edges = with(&absent(63), place, &record(edge));
            let near = (place as u64).saturating_sub(1)..=place as u64 + 1;
            each_slot(group, [&pivots, &edges, &child], near);
            each_slot(group, [&pivots, &edges, &pivots], [place as u64, 62, 63]);
        }
    }
}
