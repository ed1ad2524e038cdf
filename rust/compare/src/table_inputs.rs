//! Tables to make cases of.
use crate::inputs::{field_record, near, record, Xorshift, MAX, NO_EDGE};

/// A table of these keys.
pub fn table(keys: &[&[u8]]) -> Vec<u8> {
    keys.iter().flat_map(|key| record(key)).collect()
}

/// Document 01's pivots of T: 41 30, 41 35, 42.
pub fn pivots_of_t() -> Vec<u8> {
    table(&[&[0x41, 0x30], &[0x41, 0x35], &[0x42]])
}

/// Document 01's edges of T: 43 and none.
pub fn edges_of_t() -> Vec<u8> {
    [record(&[0x43]), field_record(NO_EDGE)].concat()
}

/// This many rising pivots, each of two bytes.
pub fn rising(count: usize) -> Vec<u8> {
    (0..count)
        .flat_map(|i| record(&[0x41, 3 * i as u8]))
        .collect()
}

/// This many edges, all absent.
pub fn absent(count: usize) -> Vec<u8> {
    field_record(NO_EDGE).repeat(count)
}

/// This many edges, each another one.
pub fn distinct(count: usize) -> Vec<u8> {
    (0..count).flat_map(|i| record(&[0x50, i as u8])).collect()
}

/// The table with another record at a place.
pub fn with(table: &[u8], place: usize, record: &[u8]) -> Vec<u8> {
    let mut changed = table.to_vec();
    changed[place * 66..][..66].copy_from_slice(record);
    changed
}

/// Good and bad pivots: some refused with 1, 2 or 3, some with two of these, some taken.
pub fn usual_pivots() -> Vec<Vec<u8>> {
    let t = pivots_of_t();
    let falling = table(&[&[0x42], &[0x41], &[0x43]]);
    let wrong = field_record(65);
    vec![
        [record(&[]), field_record(MAX)].concat(),
        rising(64),
        vec![],
        rising(1),
        wrong.to_vec(),
        rising(65),
        t[1..].to_vec(),
        [&t[..], &[0]].concat(),
        with(&t, 1, &wrong),
        with(&t, 0, &field_record(MAX)),
        with(&t, 2, &field_record(NO_EDGE)),
        with(&falling, 2, &wrong),
        with(&t, 1, &t[..66]),
        t,
        falling,
    ]
}

/// Good and bad pivots of a second table: some begin where T or another of the usual ones ends, and
/// most have as many slots as T.
pub fn usual_seconds() -> Vec<Vec<u8>> {
    let after_t = table(&[&[0x42], &[0x42, 0x05], &[0x43]]);
    vec![
        [record(&[0x41, 0xBD]), field_record(MAX)].concat(),
        rising(65),
        after_t[..197].to_vec(),
        with(&after_t, 1, &field_record(65)),
        with(&after_t, 0, &field_record(MAX)),
        with(&after_t, 1, &after_t[..66]),
        with(&after_t, 2, &field_record(MAX)),
        with(&after_t, 0, &record(&[0x42, 0x00])),
        after_t,
    ]
}

/// Good and bad edges, most of them as many as T's.
pub fn usual_edges() -> Vec<Vec<u8>> {
    let t = edges_of_t();
    vec![
        vec![],
        t[..66].to_vec(),
        t[66..].to_vec(),
        t[..131].to_vec(),
        [&t[..], &t[..66]].concat(),
        with(&t, 0, &field_record(MAX)),
        with(&t, 1, &field_record(65)),
        with(&t, 1, &record(&[])),
        with(&t, 1, &record(&[0x44; 64])),
        absent(63),
        t,
    ]
}

/// How many pivots a random table has: made of the base alone, so that pivots and edges of one
/// case fit.
fn count(base: &[u8]) -> usize {
    let sum = base.iter().fold(base.len(), |sum, &b| sum + usize::from(b));
    if sum % 64 == 0 {
        sum / 64 % 67
    } else {
        2 + sum % 6
    }
}

pub fn random_pivots(random: &mut Xorshift, base: &[u8]) -> Vec<u8> {
    let wanted = count(base);
    let mut keys = vec![];
    for _ in 0..3 * wanted {
        let mut key = near(random, base);
        key.truncate(64);
        keys.push(key);
    }
    keys.sort();
    keys.dedup();
    keys.truncate(wanted);
    let mut table: Vec<u8> = keys.iter().flat_map(|key| record(key)).collect();
    if random.one_in(4) && !table.is_empty() {
        table = with(&table, keys.len() - 1, &field_record(MAX));
    }
    spoil(random, &mut table);
    table
}

pub fn random_edges(random: &mut Xorshift, base: &[u8]) -> Vec<u8> {
    let mut table = vec![];
    for _ in 1..count(base) {
        let mut key = near(random, base);
        key.truncate(64);
        let absent = random.one_in(2);
        table.extend(if absent {
            field_record(NO_EDGE)
        } else {
            record(&key)
        });
    }
    spoil(random, &mut table);
    table
}

/// Now and then: one record twice, a mark, one byte changed, or another length.
fn spoil(random: &mut Xorshift, table: &mut Vec<u8>) {
    if table.is_empty() {
        return;
    }
    let places = table.len() / 66;
    let place = random.below(places);
    match random.below(24) {
        0 => *table = with(table, place, &table[..66]),
        1 => *table = with(table, place, &field_record(MAX)),
        2 => *table = with(table, place, &field_record(NO_EDGE)),
        3 => table[place * 66 + random.below(66)] = random.next() as u8,
        4 => table.truncate(random.below(table.len())),
        _ => {}
    }
}
