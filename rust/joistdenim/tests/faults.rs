//! Why bytes are no table or no bucket: the record, where it begins, and what is wrong with it.
mod support;

use joistdenim::{Bucket, Table, ENTRY_SIZE, MAX_ENTRIES};
use support::{t, T_SIZE};

/// What is said of T with other bytes from this place on. Places are as the message tells them.
#[track_caller]
fn of_table(place: usize, bytes: &[u8], said: &str) {
    let mut input = t().to_bytes();
    input[place..][..bytes.len()].copy_from_slice(bytes);
    assert_eq!(Table::why_refused(&input).as_deref(), Some(said));
}

#[test]
fn a_length_field_that_is_none() {
    for (field, length) in [([0, 65], 65), ([1, 0], 256), ([0xFF, 0xFD], 65_533)] {
        let said = format!("its length field is {length}, and a key has at most 64 bytes");
        of_table(2, &field, &format!("pivot 0 at byte 2: {said}"));
        of_table(134, &field, &format!("pivot 2 at byte 134: {said}"));
        of_table(266, &field, &format!("edge 1 at byte 266: {said}"));
    }
}

#[test]
fn a_byte_that_must_be_zero() {
    let behind_two = "byte 67 is 01, and all bytes behind a key of length 2 are 00";
    of_table(67, &[1], &format!("pivot 0 at byte 2: {behind_two}"));
    let first = "byte 6 is ff, and all bytes behind a key of length 2 are 00";
    of_table(6, &[0xFF, 1], &format!("pivot 0 at byte 2: {first}"));
    let shorter = "byte 136 is 42, and all bytes behind a key of length 0 are 00";
    of_table(135, &[0], &format!("pivot 2 at byte 134: {shorter}"));
    let max = "byte 136 is 42, and all bytes behind the mark max are 00";
    of_table(134, &[0xFF; 2], &format!("pivot 2 at byte 134: {max}"));
    let none = "byte 331 is 0a, and all bytes behind the mark \"no edge\" are 00";
    of_table(331, &[10], &format!("edge 1 at byte 266: {none}"));
}

#[test]
fn a_mark_in_the_wrong_place() {
    let max = "it has the mark max, which only a table's last pivot can have";
    let no_edge = "it has the mark \"no edge\", which only an edge can have";
    of_table(68, &[0xFF; 2], &format!("pivot 1 at byte 68: {max}"));
    of_table(266, &[0xFF; 2], &format!("edge 1 at byte 266: {max}"));
    of_table(2, &[0xFF, 0xFE], &format!("pivot 0 at byte 2: {no_edge}"));
    of_table(
        134,
        &[0xFF, 0xFE],
        &format!("pivot 2 at byte 134: {no_edge}"),
    );
}

#[test]
fn records_that_are_no_table() {
    let rise = "pivot 1 at byte 68: pivots don't rise strictly: 4130 isn't above 4130, which comes before it";
    of_table(71, b"0", rise);
    let empty = "edge 0 at byte 200: an edge where shared is empty: keys from 4030 up to 4135 share nothing";
    of_table(4, b"@", empty);
}

#[test]
fn what_is_no_fault_of_a_record() {
    let t = t().to_bytes();
    for input in [&[], &t[..1], &t[..T_SIZE - 1], &t[..]] {
        assert_eq!(Table::why_refused(input), None);
    }
    let mut spoiled = t.clone();
    spoiled[68] = 1;
    assert_eq!(Table::why_refused(&spoiled[..T_SIZE - 1]), None);
    let many = &[0xFF; ENTRY_SIZE * (MAX_ENTRIES + 1)];
    for bytes in [
        &[0; 2 * ENTRY_SIZE][..],
        &[],
        &many[..2 * ENTRY_SIZE - 1],
        many,
    ] {
        assert_eq!(Bucket::why_refused(bytes), None);
    }
}

#[test]
fn entries_that_are_none() {
    let cases: [(usize, &[u8], &str); 4] = [
        (
            70,
            &[0, 65],
            "entry 1 at byte 70: its length field is 65, and a key has at most 64 bytes",
        ),
        (
            205,
            &[7],
            "entry 2 at byte 140: byte 205 is 07, and all bytes behind a key of length 0 are 00",
        ),
        (
            0,
            &[0xFF; 2],
            "entry 0 at byte 0: it has the mark max, which only a table's last pivot can have",
        ),
        (
            70,
            &[0xFF, 0xFE],
            "entry 1 at byte 70: it has the mark \"no edge\", which only an edge can have",
        ),
    ];
    for (place, wrong, said) in cases {
        let mut bytes = [0; 3 * ENTRY_SIZE];
        bytes[place..][..wrong.len()].copy_from_slice(wrong);
        assert_eq!(Bucket::why_refused(&bytes).as_deref(), Some(said));
    }
}
