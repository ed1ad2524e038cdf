//! The two orders: a right cut at l and a left cut at r of what it left, and the other way
//! round, against the plain cut; and keys from l up to r, translated by what the cuts left,
//! against the translation by the uncut table.
use super::inputs::{edge_record, good_table, key_near, keys_after, Table};
use super::records::Records;
use super::small::{each_edges, tables, SHARED};
use crate::call::Hex;
use crate::group::Group;
use crate::inputs::{record, Xorshift};

const SEED: u64 = 20_270_627;

/// The records of the plain cut, or 8 where one of its edges has more than 64 bytes.
fn plain(table: &Table, l: &[u8], r: &[u8]) -> Result<Records, u32> {
    let cut = reference::plain_cut(&table.pivots, &table.edges, l, r);
    let cut = cut.expect("the table is good, and l and r are in its range");
    let edges = cut.edges.iter().map(Option::as_deref);
    if edges.clone().flatten().any(|edge| edge.len() > 64) {
        return Err(8);
    }
    Ok(Records {
        pivots: cut.pivots.iter().flat_map(|pivot| record(pivot)).collect(),
        edges: edges.flat_map(edge_record).collect(),
    })
}

/// The key translated by the reference, or 8.
fn translated(table: &Table, key: &[u8]) -> Result<Vec<u8>, u32> {
    let mut dest = vec![0; 64];
    match reference::translate_key(&table.pivots, &table.edges, key, &mut dest) {
        Ok(length) => dest.truncate(length),
        Err(refusal) => {
            assert_eq!(refusal, reference::Refusal::TooLong);
            return Err(8);
        }
    }
    Ok(dest)
}

/// What came of the cases.
#[derive(Default)]
struct Tally {
    cut: usize,
    too_long: usize,
    translated: usize,
    key_too_long: usize,
}

impl Tally {
    fn check(&self, group: &mut Group) {
        group.sorts(&[self.cut, self.too_long]);
        group.sorts(&[self.translated, self.key_too_long]);
    }
}

/// One table, with l and r in its range: both orders. Then, of these keys, those from l up to r.
fn both_orders(
    group: &mut Group,
    tally: &mut Tally,
    table: &Table,
    [l, r]: [&[u8]; 2],
    keys: &[Vec<u8>],
) {
    let uncut = Records::of(table);
    let wanted = plain(table, l, r);
    let right_first = uncut.cut(joistdenim::split_right, l);
    let right_first = right_first.and_then(|rest| rest.cut(joistdenim::split_left, r));
    let left_first = uncut.cut(joistdenim::split_left, r);
    let left_first = left_first.and_then(|rest| rest.cut(joistdenim::split_right, l));
    for (order, got) in [("right", &right_first), ("left", &left_first)] {
        group.check(*got == wanted, || {
            let (l, r) = (Hex(l), Hex(r));
            format!("{order} cut first, {uncut:02x?}, {l}, {r}: {got:02x?}; plain {wanted:02x?}")
        });
    }
    let Ok(cut) = right_first else {
        tally.too_long += 1;
        return;
    };
    tally.cut += 1;
    for key in keys.iter().filter(|key| l <= &key[..] && &key[..] < r) {
        as_before(group, tally, table, [&uncut, &cut], key);
    }
}

/// A key, translated by the uncut and by the cut records.
fn as_before(
    group: &mut Group,
    tally: &mut Tally,
    table: &Table,
    records: [&Records; 2],
    key: &[u8],
) {
    let wanted = translated(table, key);
    match wanted {
        Ok(_) => tally.translated += 1,
        Err(_) => tally.key_too_long += 1,
    }
    for by in records {
        let got = by.translated(key);
        group.check(got == wanted, || {
            let key = Hex(key);
            format!("{key} by {by:02x?}: {got:02x?}; wanted {wanted:02x?}")
        });
    }
}

/// All small tables in which every slot has a prefix, with edges at the limit or none; all small
/// l and r, and all small keys.
pub fn small(group: &mut Group) {
    let mut tally = Tally::default();
    let [_, shared] = SHARED;
    let mut keys = keys_after(shared);
    keys.sort();
    let edges: [&[u8]; 2] = [&[0x44; 63], &[0x45; 64]];
    for mut table in tables(shared) {
        each_edges(&mut table, &edges, |table| {
            let reached: Vec<_> = keys.iter().filter(|key| table.reaches(key)).collect();
            for (i, l) in reached.iter().enumerate() {
                for r in &reached[i + 1..] {
                    both_orders(group, &mut tally, table, [l, r], &keys);
                }
            }
        });
    }
    tally.check(group);
}

/// Keys near the pivots and near l, of all lengths.
fn keys_between(random: &mut Xorshift, table: &Table, l: &[u8]) -> Vec<Vec<u8>> {
    let mut keys: Vec<_> = (0..6).map(|_| key_near(random, table)).collect();
    let full = [l, &vec![0; 64 - l.len()]].concat();
    keys.extend([l.to_vec(), full]);
    keys.extend(table.keys.iter().take(8).cloned());
    keys
}

pub fn random(group: &mut Group, count: usize) {
    let mut tally = Tally::default();
    let mut random = Xorshift::new(SEED);
    for _ in 0..count {
        let table = good_table(&mut random);
        for _ in 0..6 {
            let mut ends = [0; 2].map(|_| key_near(&mut random, &table));
            ends.sort();
            let [l, r] = &ends;
            if l < r && table.reaches(l) && table.reaches(r) {
                let keys = keys_between(&mut random, &table, l);
                both_orders(group, &mut tally, &table, [l, r], &keys);
            }
        }
    }
    tally.check(group);
}
