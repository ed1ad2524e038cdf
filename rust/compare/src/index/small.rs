//! All small tables with all small buckets, good and bad, and indexes near the right one; and
//! destinations of every length.
use super::calls::{
    BUILD_INDEX, CHECK_INDEX, CUTS, CUT_INDEX_LEFT, CUT_INDEX_RIGHT, SLOT_ENTRIES, TRANSLATE_INDEX,
};
use super::inputs::{wrong_indexes, Indexed};
use crate::asked::Asked;
use crate::bucket_inputs::bucket;
use crate::dests::around;
use crate::group::Group;
use crate::inputs::{field_record, record, Record, ENTRY_SIZE, MAX};
use crate::table_inputs::{pivots_of_t, rising};

/// Neighbours, and keys that begin others.
const KEYS: [&[u8]; 6] = [&[], &[0x00], &[0x00, 0xFF], &[0x41], &[0x41, 0x00], &[0xFF]];

/// So many of these in any order, and with equal ones; the last also of the others.
fn each_choice(count: u32, records: &[Record], last: &[Record], mut body: impl FnMut(&[Record])) {
    let ways = records.len().pow(count.saturating_sub(1));
    let lasts = if count == 0 { 1 } else { last.len() };
    for mut way in 0..ways * lasts {
        let end = last[way % lasts];
        way /= lasts;
        let mut chosen = vec![];
        for _ in 1..count {
            chosen.push(records[way % records.len()]);
            way /= records.len();
        }
        if count > 0 {
            chosen.push(end);
        }
        body(&chosen);
    }
}

/// All tables of two and three of the keys, rising or not, and all rising ones of four; the last
/// pivot also max.
fn tables() -> Vec<Vec<u8>> {
    let records = KEYS.map(record);
    let lasts = [&records[..], &[field_record(MAX)]].concat();
    let mut tables = vec![];
    for count in 2..=4 {
        each_choice(count, &records, &lasts, |chosen| {
            let table = chosen.concat();
            if count < 4 || reference::wf_pivots(&table).is_ok() {
                tables.push(table);
            }
        });
    }
    tables
}

/// All buckets of up to three of the keys, rising or not.
fn buckets() -> Vec<Vec<u8>> {
    let records = KEYS.map(record);
    let mut buckets = vec![];
    for count in 0..=3 {
        each_choice(count, &records, &records, |chosen| {
            buckets.push(bucket(chosen))
        });
    }
    buckets
}

fn all() -> impl Iterator<Item = Indexed> {
    let buckets = buckets();
    let tables = tables().into_iter();
    tables.flat_map(move |pivots| {
        let indexed = buckets.iter().map(|bucket| Indexed::of(&pivots, bucket));
        indexed.collect::<Vec<_>>()
    })
}

fn is_good(x: &Indexed) -> bool {
    reference::check_index(&x.pivots, &x.bucket, &x.index).is_ok()
}

/// Those whose table and bucket are good, and one in eleven of all.
fn most() -> impl Iterator<Item = Indexed> {
    let some = all().enumerate();
    some.filter(|(i, x)| i % 11 == 0 || is_good(x))
        .map(|(_, x)| x)
}

pub fn built(group: &mut Group) {
    let [mut good, mut bad] = [0; 2];
    for x in all() {
        around(group, &BUILD_INDEX, &x.slices()[..2]);
        *(if is_good(&x) { &mut good } else { &mut bad }) += 1;
    }
    group.check(100 * good >= bad, || format!("only {good} are good"));
}

/// The right index, and each that is near it; of bad tables and buckets, too.
pub fn checked(group: &mut Group) {
    for x in most() {
        group.ask(&CHECK_INDEX, &x.slices());
        for wrong in wrong_indexes(&x.index) {
            group.ask(&CHECK_INDEX, &x.with_index(&wrong).slices());
        }
    }
}

/// Each slot and those past the last, also with an index that lacks or has a place too many.
pub fn slots(group: &mut Group) {
    for x in most() {
        let slots = x.index.len() as u64 / 2;
        let short = &x.index[..x.index.len() - 2];
        for index in [&x.index, short, &[&x.index[..], &[0, 3]].concat()] {
            let x = x.with_index(index);
            for slot in (0..=slots).chain([1 << 32, u64::MAX]) {
                group.case(&SLOT_ENTRIES, &Asked::new(&x.slices(), slot, 0));
            }
        }
    }
}

/// Both cuts at every small key, with room to spare.
pub fn cuts(group: &mut Group) {
    for x in most() {
        for key in KEYS.into_iter().chain([&[0x00, 0x00][..], &[0x41, 0xFF]]) {
            for call in CUTS {
                let slices = x.with_key(key);
                group.case(call, &Asked::with_dests(&slices, [4 * ENTRY_SIZE, 9]));
            }
        }
    }
}

/// Cuts where the index is right, with destinations around what is written; and where it is
/// wrong.
pub fn cut_destinations(group: &mut Group) {
    for x in all().filter(is_good) {
        for key in KEYS {
            for call in CUTS {
                around(group, call, &x.with_key(key));
            }
        }
        for wrong in wrong_indexes(&x.index).iter().step_by(3) {
            let x = x.with_index(wrong);
            for call in CUTS {
                let slices = x.with_key(&[0x41]);
                group.case(call, &Asked::with_dests(&slices, [0, 0]));
            }
        }
    }
}

/// Under each small prefix, with new ones such that 64 and 65 bytes are produced.
pub fn renamed(group: &mut Group) {
    for x in most() {
        for old in [&[][..], &[0x00], &[0x41]] {
            for new in [&[][..], &[0x43], &[0x44; 63], &[0x45; 64]] {
                let slices = x.with_prefixes(old, new);
                let asked = Asked::with_dests(&slices, [4 * ENTRY_SIZE, 9]);
                group.case(&TRANSLATE_INDEX, &asked);
            }
        }
    }
    for x in all().filter(is_good) {
        for new in [&[0x43][..], &[0x44; 63]] {
            around(group, &TRANSLATE_INDEX, &x.with_prefixes(&[0x00], new));
        }
        for wrong in wrong_indexes(&x.index).iter().step_by(3) {
            let x = x.with_index(wrong);
            let slices = x.with_prefixes(&[], &[0x45; 64]);
            group.case(&TRANSLATE_INDEX, &Asked::with_dests(&slices, [0, 0]));
        }
    }
}

/// Every length of one destination beside several of the other, for T and for 64 pivots.
pub fn every_length(group: &mut Group) {
    let keys = [[0x41, 0x30], [0x41, 0x32], [0x41, 0x36]];
    for pivots in [pivots_of_t(), rising(64)] {
        let x = Indexed::new(&pivots, &keys);
        for call in [&CUT_INDEX_LEFT, &CUT_INDEX_RIGHT, &TRANSLATE_INDEX] {
            let all = x.with_prefixes(&[0x41, 0x32], &[0x43]);
            let slices = &all[..call.arguments.len()];
            for len in 0..=3 * ENTRY_SIZE + 1 {
                for other in [0, 3, 4, 5, 6, 40, 69, 70, 128, 140, 210] {
                    group.case(call, &Asked::with_dests(slices, [len, other]));
                    group.case(call, &Asked::with_dests(slices, [other, len]));
                }
            }
        }
        for len in 0..=140 {
            group.compare(&BUILD_INDEX, &x.slices()[..2], len);
        }
    }
}
