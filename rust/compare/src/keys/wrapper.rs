//! The safe wrapper's calls on single keys against the reference.
use crate::group::Group;
use crate::inputs::{counted, entry, field_record, record, small_keys, ENTRY_SIZE, MAX, NO_EDGE};
use crate::wrapper::{into_both, same};

pub fn keys_and_records(group: &mut Group) {
    let keys = small_keys(3);
    let mut slices: Vec<Vec<u8>> = keys.iter().map(|key| record(key).to_vec()).collect();
    slices.extend([MAX, NO_EDGE, 65].map(|field| field_record(field).to_vec()));
    slices.extend([0, 65, 67, ENTRY_SIZE].map(counted));
    for a in &slices {
        let key = joistdenim::pivot_key(a);
        same(group, "pivot_key", &[a], key, reference::pivot_key(a));
        for b in &slices {
            let order = joistdenim::compare(a, b);
            same(group, "compare", &[a, b], order, reference::compare(a, b));
        }
        for left in &keys {
            let prefix = joistdenim::pivot_lcp(left, a);
            same(
                group,
                "pivot_lcp",
                &[left, a],
                prefix,
                reference::pivot_lcp(left, a),
            );
        }
        let Ok(record) = a[..].try_into() else {
            continue;
        };
        for len in [ENTRY_SIZE, ENTRY_SIZE - 1, 66] {
            let entry = &entry(record)[..len];
            let key = joistdenim::entry_key(entry);
            same(
                group,
                "entry_key",
                &[entry],
                key,
                reference::entry_key(entry),
            );
        }
    }
}

pub fn destinations(group: &mut Group) {
    let keys = small_keys(3);
    for key in &keys {
        for old in &keys {
            for (new, dest) in [(0, 4), (1, 3), (62, 64), (62, 63), (65, 64)] {
                let new = &counted(new);
                into_both!(group, dest, change_prefix(key, old, new));
            }
        }
        for dest in [65, 66, 67] {
            into_both!(group, dest, shortest_uncommon_prefix(key));
        }
    }
}
