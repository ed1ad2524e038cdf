//! Calls that hand back a part of what they are lent: the bytes lie there, and aren't copied.
mod support;

use joistdenim::{entry_key, get_key, pivot_key, pivot_lcp, slot_entries, Refusal, ENTRY_SIZE};
use support::{bytes, entries, pivots};

/// The part, and that it begins at this place of the whole.
#[track_caller]
fn is_part(part: Result<&[u8], Refusal>, whole: &[u8], at: usize, wanted: &[u8]) {
    assert_eq!(part, Ok(wanted));
    assert_eq!(part.map(<[u8]>::as_ptr), Ok(whole[at..].as_ptr()));
}

#[test]
fn the_key_of_a_record_and_of_an_entry() {
    let (record, entry) = (pivots("4130"), entries("4130 7"));
    is_part(pivot_key(&record), &record, 2, &[0x41, 0x30]);
    is_part(entry_key(&entry), &entry, 2, &[0x41, 0x30]);
}

#[test]
fn what_a_range_shares() {
    let left = bytes("4130");
    is_part(pivot_lcp(&left, &pivots("4135")), &left, 0, &[0x41]);
    is_part(pivot_lcp(&left, &pivots("4131")), &left, 0, &left);
    is_part(pivot_lcp(&left, &pivots("max")), &left, 0, &[]);
}

#[test]
fn the_key_at_a_place() {
    let t = pivots("4130 4135 max");
    is_part(get_key(&t, 0), &t, 2, &[0x41, 0x30]);
    is_part(get_key(&t, 1), &t, 68, &[0x41, 0x35]);
}

/// Three slots, the second without entries.
#[test]
fn the_entries_of_a_slot() {
    let (pivots, bucket) = (pivots("41 42 43 44"), entries("41 7\n4130 8\n4330 9\n"));
    let index = [0, 0, 0, 2, 0, 2, 0, 3];
    for (slot, from, to) in [(0, 0, 2), (1, 2, 2), (2, 2, 3)] {
        let part = slot_entries(&pivots, &bucket, &index, slot);
        let [from, to] = [from, to].map(|place| place * ENTRY_SIZE);
        is_part(part, &bucket, from, &bucket[from..to]);
    }
}

/// A place of both bytes: 300 entries in the first slot, and two in the second.
#[test]
fn the_entries_of_a_slot_behind_300_others() {
    let many: String = (0..300).map(|i| format!("41{i:04x} 7\n")).collect();
    let bucket = entries(&format!("{many}42 8\n4230 9\n"));
    let pivots = pivots("41 42 43");
    let index = [0, 0, 1, 44, 1, 46];
    let (first, last) = bucket.split_at(300 * ENTRY_SIZE);
    is_part(slot_entries(&pivots, &bucket, &index, 0), &bucket, 0, first);
    let at = first.len();
    is_part(slot_entries(&pivots, &bucket, &index, 1), &bucket, at, last);
}
