//! Laws between the answers of the archive's calls on renamed ranges, pivots and edges.
use super::random::renamed;
use crate::answers;
use crate::call::Hex;
use crate::cuts::inputs::{good_table, key_near};
use crate::group::Group;
use crate::inputs::{field_record, record, small_keys, Xorshift, MAX};
use joistdenim::{change_prefix, pivot_lcp, translate_edges, translate_key, translate_pivots};

const SEED: u64 = 20_330_627;

/// Whether the range, two records, holds the key.
fn holds(range: &[u8], key: &[u8]) -> bool {
    joistdenim::bounded_key(range, key) == Ok(true)
}

/// Of the keys that begin with the range's prefix, exactly those of the range are, with the
/// prefix changed, in the range under the new prefix.
pub fn ranges(group: &mut Group) {
    let (keys, inside) = (small_keys(2), small_keys(3));
    let mut rights: Vec<_> = keys.iter().map(|key| record(key)).collect();
    rights.push(field_record(MAX));
    let mut seen = [0; 2];
    for left in &keys {
        for right in &rights {
            let range = [&record(left)[..], right].concat();
            let prefix = pivot_lcp(left, right).expect("a key and an element");
            for new in [&[][..], &[0x43], &[0xFE, 0xFF], &[0xFF, 0xFF]] {
                let moved = answers::records(|dest| {
                    joistdenim::translate_pivot_pair(left, right, prefix, new, dest)
                });
                let Ok(moved) = moved else {
                    let fell = joistdenim::wf_pivots(&range).is_err();
                    group.check(fell && moved == Err(9), || Hex(&range).to_string());
                    continue;
                };
                for key in inside.iter().filter(|key| key.starts_with(prefix)) {
                    let image = answers::key(|dest| change_prefix(key, prefix, new, dest));
                    let image = image.expect("a short key that begins with the prefix");
                    let is_inside = holds(&range, key);
                    group.check(holds(&moved, &image) == is_inside, || {
                        format!("{}, {}: {}", Hex(&range), Hex(new), Hex(key))
                    });
                    seen[usize::from(is_inside)] += 1;
                }
            }
        }
    }
    group.sorts(&seen);
}

/// Pivots under another prefix, and then under the old one with the old end, are the pivots.
pub fn and_back(group: &mut Group, count: usize) {
    let mut random = Xorshift::new(SEED);
    let mut seen = [0; 2];
    for _ in 0..count {
        let table = good_table(&mut random);
        let [pivots, old, new, end] = &renamed(&mut random, &table);
        let moved = answers::records(|dest| translate_pivots(pivots, old, new, end, dest));
        seen[usize::from(moved.is_ok())] += 1;
        let Ok(moved) = moved else {
            continue;
        };
        let end = &pivots[pivots.len() - 66..];
        let back = answers::records(|dest| translate_pivots(&moved, new, old, end, dest));
        group.check(back.as_ref() == Ok(pivots), || {
            format!("{}, {} to {}", Hex(pivots), Hex(old), Hex(new))
        });
    }
    group.sorts(&seen);
}

/// Where the filled edges are well formed, each key is translated as before. They aren't exactly
/// where an absent edge was filled with nothing.
pub fn filled(group: &mut Group, count: usize) {
    let mut random = Xorshift::new(SEED);
    let mut seen = [0; 2];
    for _ in 0..count {
        let table = good_table(&mut random);
        let (p, e) = (&table.pivots, &table.edges);
        let full = answers::records(|dest| translate_edges(p, e, dest)).expect("a good table");
        let empty = (0..table.slots()).any(|slot| table.prefix(slot).is_empty());
        let refusal = joistdenim::wf_edges(p, &full).err();
        let wanted = empty.then_some(joistdenim::Refusal::EmptyPrefix);
        group.check(refusal == wanted, || format!("{}, {}", Hex(p), Hex(&full)));
        seen[usize::from(empty)] += 1;
        if empty {
            continue;
        }
        for _ in 0..6 {
            let key = key_near(&mut random, &table);
            let before = answers::key(|dest| translate_key(p, e, &key, dest));
            let after = answers::key(|dest| translate_key(p, &full, &key, dest));
            group.check(after == before, || {
                format!("{} by {}, {}", Hex(&key), Hex(p), Hex(e))
            });
        }
    }
    group.sorts(&seen);
}
