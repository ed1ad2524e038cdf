//! Laws of the archive's own answers: what an insertion leaves translates as the table did and is
//! cut as the table is, and it is refused with 8 exactly where a cut at the key is.
use crate::call::Hex;
use crate::cuts::inputs::{good_table, key_near, Table};
use crate::cuts::records::Records;
use crate::cuts::small::each_good;
use crate::group::Group;
use crate::inputs::{field_record, record, Xorshift, MAX};
use joistdenim::{split_left, split_right};

const SEED: u64 = 20_290_627;
const MOST_PIVOTS: usize = 64;
const LONGEST: usize = 64;
/// Keys to put into one table: enough to fill most.
const TRIES: usize = 400;

/// What came of the insertions, and of the keys translated by what they left.
#[derive(Default)]
struct Tally {
    taken: usize,
    too_long: usize,
    refused_before: usize,
    translated: usize,
    key_too_long: usize,
    outside: usize,
}

impl Tally {
    fn count(&mut self, inserted: &Result<Records, u32>) {
        *match inserted {
            Ok(_) => &mut self.taken,
            Err(8) => &mut self.too_long,
            Err(_) => &mut self.refused_before,
        } += 1;
    }

    fn count_key(&mut self, translated: &Result<Vec<u8>, u32>) {
        *match translated {
            Ok(_) => &mut self.translated,
            Err(8) => &mut self.key_too_long,
            Err(_) => &mut self.outside,
        } += 1;
    }

    fn check(&self, group: &mut Group) {
        group.sorts(&[self.taken, self.too_long, self.refused_before]);
        group.sorts(&[self.translated, self.key_too_long, self.outside]);
    }
}

/// The old pivots and the key, in order.
fn pivots_with(table: &Table, key: &[u8]) -> Vec<u8> {
    let mut keys: Vec<&[u8]> = table.keys.iter().map(|pivot| &pivot[..]).collect();
    keys.push(key);
    keys.sort();
    let max = table.to_max.then_some(field_record(MAX));
    let records = keys.into_iter().map(record).chain(max);
    records.flatten().collect()
}

/// The refusal that comes before 8, if any.
fn refused_before(table: &Table, key: &[u8]) -> Option<u32> {
    if !table.reaches(key) {
        Some(5)
    } else if table.keys.iter().any(|pivot| pivot == key) {
        Some(11)
    } else {
        (table.slots() + 1 == MOST_PIVOTS).then_some(12)
    }
}

/// A key put into a good table: whether it is taken, and where it is, what was left.
fn insertion(group: &mut Group, table: &Table, key: &[u8]) -> Result<Records, u32> {
    let old = Records::of(table);
    let inserted = old.inserted(key);
    let left = old.cut(split_left, key);
    let right = old.cut(split_right, key);
    let too_long = left == Err(8) || right == Err(8);
    let refused = refused_before(table, key).or(too_long.then_some(8));
    let text = |law: &str| format!("{law}: {} into {old:02x?}: {inserted:02x?}", Hex(key));
    group.check(inserted.as_ref().err() == refused.as_ref(), || {
        text(&format!("wanted {refused:?}"))
    });
    if let Ok(new) = &inserted {
        let checked = joistdenim::wf_edges(&new.pivots, &new.edges);
        group.check(checked.is_ok(), || text("well formed"));
        group.check(new.pivots == pivots_with(table, key), || text("pivots"));
        for (split, by_old) in [(split_left as _, left), (split_right as _, right)] {
            let by_new = new.cut(split, key);
            group.check(by_new.is_ok() && by_new == by_old, || {
                text(&format!("cut {by_new:02x?}, the old one {by_old:02x?}"))
            });
        }
    }
    inserted
}

/// Each of these keys, bounded or not, translates by what was left as before.
fn as_before(group: &mut Group, tally: &mut Tally, [old, new]: [&Records; 2], keys: &[Vec<u8>]) {
    for key in keys {
        let before = old.translated(key);
        tally.count_key(&before);
        let after = new.translated(key);
        group.check(after == before, || {
            let key = Hex(key);
            format!("{key} by {new:02x?}: {after:02x?}; by {old:02x?}: {before:02x?}")
        });
    }
}

fn laws(group: &mut Group, tally: &mut Tally, table: &Table, key: &[u8], keys: &[Vec<u8>]) {
    let inserted = insertion(group, table, key);
    tally.count(&inserted);
    if let Ok(new) = inserted {
        as_before(group, tally, [&Records::of(table), &new], keys);
    }
}

/// All small tables that are well formed, with edges at the limit or none; all small keys put in,
/// and all small keys translated.
pub fn small(group: &mut Group) {
    let mut tally = Tally::default();
    each_good(|table, key, keys| laws(group, &mut tally, table, key, keys));
    tally.check(group);
}

pub fn random(group: &mut Group, count: usize) {
    let mut tally = Tally::default();
    let mut random = Xorshift::new(SEED);
    for _ in 0..count {
        let table = good_table(&mut random);
        for _ in 0..4 {
            let key = key_near(&mut random, &table);
            let mut keys: Vec<_> = (0..8).map(|_| key_near(&mut random, &table)).collect();
            let full = [&key[..], &vec![0; LONGEST - key.len()]].concat();
            keys.extend([key.clone(), full]);
            laws(group, &mut tally, &table, &key, &keys);
        }
    }
    tally.check(group);
}

/// The table with one key after the other put in, as far as they are taken.
fn filled(group: &mut Group, tally: &mut Tally, random: &mut Xorshift, mut table: Table) -> Table {
    for _ in 0..TRIES {
        let key = key_near(random, &table);
        let inserted = insertion(group, &table, &key);
        tally.count(&inserted);
        if let Ok(new) = inserted {
            table.keys.push(key);
            table.keys.sort();
            (table.pivots, table.edges) = (new.pivots, new.edges);
        }
    }
    table
}

/// However many are put in, keys translate as by the table before all of them.
pub fn until_full(group: &mut Group, count: usize) {
    let mut tally = Tally::default();
    let mut random = Xorshift::new(SEED);
    let mut full = 0;
    for _ in 0..count {
        let table = good_table(&mut random);
        let keys: Vec<_> = (0..40).map(|_| key_near(&mut random, &table)).collect();
        let old = Records::of(&table);
        let table = filled(group, &mut tally, &mut random, table);
        full += usize::from(table.slots() + 1 == MOST_PIVOTS);
        as_before(group, &mut tally, [&old, &Records::of(&table)], &keys);
    }
    group.check(2 * full >= count, || format!("{full} of {count} full"));
    tally.check(group);
}
