//! `bucket translate`: text and bytes, what is kept and skipped, and what would be too long.
mod support;

use joistdenim::{Number, ENTRY_SIZE, MAX_ENTRIES, MAX_LEN, RECORD_SIZE};
use support::{ran, table, Folder, SHORT_T};

const BUCKET: &str = "413001\t7\n42\t8\n413402\t9\n";

/// Why bytes FF are no entry.
const MAX: &str = "it has the mark max, which only a table's last pivot can have";

/// The entries' bytes: keys of a few bytes and their numbers.
fn entries(of: &[(&[u8], Number)]) -> Vec<u8> {
    let mut bytes = vec![];
    for (key, number) in of {
        let at = bytes.len();
        bytes.resize(at + RECORD_SIZE, 0);
        bytes[at + 1] = key.len() as u8;
        bytes[at + 2..][..key.len()].copy_from_slice(key);
        bytes.extend(number.to_be_bytes());
    }
    bytes
}

#[test]
fn entries_with_the_prefix_are_renamed() {
    let renamed = ran("bucket translate 41 43 -", BUCKET);
    assert_eq!(renamed.status, 0);
    assert_eq!(renamed.output, b"433001\t7\n433402\t9\n");
    assert_eq!(renamed.errors, "kept 2, skipped 1\n");
    let folder = Folder::new();
    let path = folder.with("bucket.txt", BUCKET);
    assert_eq!(ran(&format!("bucket translate 41 43 {path}"), ""), renamed);
    let as_written = ran("bucket translate --text A C -", BUCKET);
    assert_eq!(as_written, renamed);
    let taken_off = ran("bucket translate 41 - -", BUCKET);
    assert_eq!(taken_off.output, b"3001\t7\n3402\t9\n");
    let all = ran("bucket translate - 50 -", BUCKET);
    assert_eq!(all.output, b"50413001\t7\n5042\t8\n50413402\t9\n");
    let none = ran("bucket translate 44 43 -", BUCKET);
    assert_eq!((none.status, none.output), (0, vec![]));
    assert_eq!(none.errors, "kept 0, skipped 3\n");
}

#[test]
fn entries_may_be_bytes() {
    let bucket = entries(&[(b"A0", 7), (b"B", Number::MAX), (b"A4", 256)]);
    let renamed = ran("bucket translate --bytes 41 43 -", &bucket);
    assert_eq!(renamed.output, entries(&[(b"C0", 7), (b"C4", 256)]));
    assert_eq!(renamed.errors, "kept 2, skipped 1\n");
    let report = ran("bucket translate --bytes --report 41 43 -", &bucket).text();
    assert_eq!(report.lines().nth(2), Some("skipped\t42\t\t4294967295"));
}

#[test]
fn the_report_says_what_becomes_of_each() {
    let header = "fate\tkey\trenamed\tnumber\n";
    let report = ran("bucket translate --report 41 43 -", BUCKET).text();
    let rows = "kept\t413001\t433001\t7\nskipped\t42\t\t8\nkept\t413402\t433402\t9\n";
    assert_eq!(report, format!("{header}{rows}"));
    let edge = "43".repeat(62);
    let bucket = "4130 1\n42 2\n413001 3\n";
    let report = ran(&format!("bucket translate --report 41 {edge} -"), bucket).text();
    let rows = format!("kept\t4130\t{edge}30\t1\nskipped\t42\t\t2\nkept\t413001\t{edge}3001\t3\n");
    assert_eq!(report, format!("{header}{rows}"));
    let edge = format!("{edge}43");
    let report = ran(&format!("bucket translate --report 41 {edge} -"), bucket).text();
    let rows = format!("kept\t4130\t{edge}30\t1\nskipped\t42\t\t2\ntoo long\t413001\t\t3\n");
    assert_eq!(report, format!("{header}{rows}"));
    let line = "refused 8: of 3 entries 1 would pass 64 bytes: 413001";
    ran(&format!("bucket translate 41 {edge} -"), bucket).failed(1, line);
}

#[test]
fn what_is_no_bucket() {
    let place = "standard input, line";
    for (text, said) in [
        (
            "41",
            "1, column 1: a line of a bucket has 2 fields, a key and a number, and this has 1",
        ),
        ("41 7\n4x 8\n", "2, column 2: 'x' is no hexadecimal digit"),
        (
            "41 4294967296\n",
            "1, column 4: a number goes from 0 to 4294967295",
        ),
    ] {
        let line = format!("joistdenim: {place} {said}");
        ran("bucket translate 41 43 -", text).failed(2, &line);
    }
    let many = "41 7\n".repeat(MAX_ENTRIES + 1);
    let line = format!(
        "refused 1: {place} 513, column 1: a bucket has at most 512 entries, and this has 513"
    );
    ran("bucket translate 41 43 -", &many).failed(1, &line);
    let most = ran("bucket translate 41 43 -", &many["41 7\n".len()..]);
    assert_eq!(most.errors, "kept 512, skipped 0\n");
}

#[test]
fn what_are_no_entries() {
    let two = entries(&[(b"A0", 7), (b"B", 8)]);
    let translate = |bytes: &[u8]| ran("bucket translate --bytes 41 43 -", bytes);
    let refused = |bytes: &[u8], said: &str| {
        translate(bytes).failed(1, &format!("refused 1: standard input has {said}"));
    };
    let no_multiple = "bytes, which is no multiple of 70, the bytes of an entry";
    refused(&two[..2 * ENTRY_SIZE - 1], &format!("139 {no_multiple}"));
    refused(&[0; 36_000], &format!("36000 {no_multiple}"));
    refused(
        &table(SHORT_T),
        &format!("332 {no_multiple}; it is a table"),
    );
    let many = |count| format!("{count} entries, and a bucket has at most 512");
    refused(&two[..ENTRY_SIZE].repeat(MAX_ENTRIES + 1), &many("513"));
    refused(&two.repeat(25_600), &many("51200"));
    refused(&two.repeat(25_601), &many("over 51200"));
    let text = "refused 1: standard input is text; without --bytes it is read";
    translate(BUCKET.as_bytes()).failed(1, text);
    let wrong = [&two[..], &[0xFF; ENTRY_SIZE]].concat();
    translate(&wrong).failed(
        1,
        &format!("refused 2: standard input, entry 2 at byte 140: {MAX}"),
    );
    let mut wrong = two.repeat(2);
    wrong[2 * ENTRY_SIZE + RECORD_SIZE - 1] = 0x0A;
    let zero = "byte 205 is 0a, and all bytes behind a key of length 2 are 00";
    translate(&wrong).failed(
        1,
        &format!("refused 2: standard input, entry 2 at byte 140: {zero}"),
    );
    let hint = "joistdenim: standard input is no text; with --bytes entries are read";
    ran("bucket translate 41 43 -", two).failed(2, hint);
}

#[test]
fn of_two_refusals_the_buckets_comes_first() {
    let long = "41".repeat(MAX_LEN + 1);
    let many = "41 7\n".repeat(MAX_ENTRIES + 1);
    let line = "refused 1: standard input, line 513, column 1: a bucket has at most 512 entries, and this has 513";
    ran(&format!("bucket translate {long} 43 -"), many).failed(1, line);
    let wrong = format!("refused 2: standard input, entry 0 at byte 0: {MAX}");
    ran(
        &format!("bucket translate --bytes 43 {long} -"),
        [0xFF; ENTRY_SIZE],
    )
    .failed(1, &wrong);
}
