//! All small tables with each sort of edge in each slot, and all small keys; and destinations of
//! every length.
use super::inputs::{edge_record, keys_after, Table};
use crate::asked::Asked;
use crate::call::Call;
use crate::dests::around;
use crate::group::Group;
use crate::inputs::{field_record, record, MAX};
use crate::table_inputs::{absent, edges_of_t, pivots_of_t, rising};

/// What the keys of the small tables begin with: nothing, so that few slots have a prefix; or
/// FF, so that all have one.
pub const SHARED: [&[u8]; 2] = [&[], &[0xFF]];

/// The pivots of the small tables: neighbours of one and of two bytes, and runs of FF.
fn pivot_keys(shared: &[u8]) -> Vec<Vec<u8>> {
    let keys: [&[u8]; 13] = [
        &[],
        &[0x00],
        &[0x00, 0xFF],
        &[0x01],
        &[0x01, 0x00],
        &[0x41],
        &[0x41, 0x00],
        &[0x41, 0x01],
        &[0x41, 0xFF],
        &[0xFE, 0xFF],
        &[0xFF],
        &[0xFF, 0xFE],
        &[0xFF, 0xFF],
    ];
    keys.map(|key| [shared, key].concat()).to_vec()
}

/// All rising tables of two and three of these pivots, the last also max.
pub fn tables(shared: &[u8]) -> Vec<Table> {
    tables_of(&pivot_keys(shared))
}

/// All rising tables of two and three of these keys, which rise, the last also max.
pub fn tables_of(keys: &[Vec<u8>]) -> Vec<Table> {
    let mut tables = vec![];
    let mut take = |chosen: &[&Vec<u8>], to_max| {
        tables.push(Table::new(
            chosen.iter().copied().cloned().collect(),
            to_max,
        ));
    };
    for (i, a) in keys.iter().enumerate() {
        take(&[a], true);
        for (j, b) in keys.iter().enumerate().skip(i + 1) {
            take(&[a, b], false);
            take(&[a, b], true);
            for c in &keys[j + 1..] {
                take(&[a, b, c], false);
            }
        }
    }
    tables
}

/// Each way to give each slot of the table one of these edges, or none.
pub fn each_edges(table: &mut Table, edges: &[&[u8]], mut body: impl FnMut(&Table)) {
    let sorts = edges.len() + 1;
    for mut way in 0..sorts.pow(table.slots() as u32) {
        for slot in 0..table.slots() {
            table.put_edge(slot, edges.get(way % sorts).copied());
            way /= sorts;
        }
        body(table);
    }
}

/// All small tables with every choice of these edges, and all small keys with each. Where the range
/// has no prefix, an edge is refused with 4.
pub fn each_table(edges: &[&[u8]], mut body: impl FnMut(&Table, &[Vec<u8>])) {
    for shared in SHARED {
        let keys = keys_after(shared);
        for mut table in tables(shared) {
            each_edges(&mut table, edges, |table| body(table, &keys));
        }
    }
}

/// All small tables that are well formed, with edges at the limit or none.
pub fn each_good_table(mut body: impl FnMut(&Table, &[Vec<u8>])) {
    each_table(&[&[0x44; 63], &[0x45; 64]], |table, keys| {
        if joistdenim::wf_edges(&table.pivots, &table.edges).is_ok() {
            body(table, keys);
        }
    });
}

/// All small tables that are well formed, and each small key with all of them.
pub fn each_good(mut body: impl FnMut(&Table, &[u8], &[Vec<u8>])) {
    each_good_table(|table, keys| {
        for key in keys {
            body(table, key, keys);
        }
    });
}

/// Edges of every sort: 63 and 64 bytes are where a byte more is taken and refused.
pub const EDGES: [&[u8]; 4] = [&[], &[0x43], &[0x44; 63], &[0x45; 64]];

/// Every small key in every small table with every choice of edges.
pub fn all_keys(group: &mut Group, call: &Call) {
    each_table(&EDGES, |table, keys| {
        for key in keys {
            let slices: [&[u8]; 3] = [&table.pivots, &table.edges, key];
            // An insertion writes a record more than the table has.
            let room = [table.pivots.len() + 67, table.edges.len() + 67];
            group.case(call, &Asked::with_dests(&slices, room));
        }
    });
}

/// A call on each small table and key, with edges of 64 bytes or none, all slots with a prefix,
/// and destinations around what is written.
pub fn destinations(group: &mut Group, call: &Call) {
    let [_, shared] = SHARED;
    let keys = keys_after(shared);
    for mut table in tables(shared) {
        each_edges(&mut table, &[&[0x45; 64]], |table| {
            for key in keys.iter().step_by(2) {
                let slices: [&[u8]; 3] = [&table.pivots, &table.edges, key];
                around(group, call, &slices);
            }
        });
    }
}

/// Tables of two and three of these pivots in any order, and wrong edges.
pub fn unsorted(group: &mut Group, call: &Call) {
    let mut last: Vec<_> = pivot_keys(&[]).iter().map(|key| record(key)).collect();
    let pivots = last.clone();
    last.push(field_record(MAX));
    let sorts = [
        edge_record(None),
        record(&[0x43]),
        field_record(65),
        field_record(MAX),
    ];
    for a in &pivots {
        for b in &pivots {
            for c in &last {
                let table = [*a, *b, *c].concat();
                for (i, edge) in sorts.iter().enumerate() {
                    let edges = [*edge, sorts[(i + 1) % 4]].concat();
                    for key in [&[][..], &[0x41], &[0x41, 0x00, 0x01]] {
                        let slices: [&[u8]; 3] = [&table, &edges, key];
                        group.case(call, &Asked::with_dests(&slices, [200, 200]));
                    }
                }
            }
        }
    }
}

/// Every length of one destination beside several of the other, for T and for 64 pivots.
pub fn every_length(group: &mut Group, call: &Call) {
    let tables = [
        (pivots_of_t(), edges_of_t()),
        (rising(64), absent(63)),
        (rising(5), [&record(&[0x43])[..], &absent(3)].concat()),
    ];
    for (pivots, edges) in &tables {
        for key in [[0x41, 0x01], [0x41, 0x03], [0x41, 0x0B], [0x41, 0x31]] {
            let slices: [&[u8]; 3] = [pivots, edges, &key];
            for len in 0..=400 {
                for other in [0, 65, 66, 131, 132, 198, 4224] {
                    group.case(call, &Asked::with_dests(&slices, [len, other]));
                    group.case(call, &Asked::with_dests(&slices, [other, len]));
                }
            }
        }
    }
}
