//! `list`, `table` and `check`: round trips, what is refused, and what can't be read.
mod support;

use joistdenim::{MAX_LEN, MAX_LIST, MAX_PIVOTS};
use std::fs;
use support::{list, ran, root, table, Folder, LIST_OF_T, SHORT_T};

/// T with other bytes from this place on. A record begins at 2, 68 and 134 for the pivots, at 200
/// and 266 for the edges.
fn changed(place: usize, bytes: &[u8]) -> Vec<u8> {
    let mut t = table(SHORT_T);
    t[place..][..bytes.len()].copy_from_slice(bytes);
    t
}

/// 64 pivots of 64 bytes that rise by one in the last, and as long an edge in each slot.
fn longest() -> String {
    let (shared, edge) = ("61".repeat(MAX_LEN - 1), "62".repeat(MAX_LEN));
    let lines = (0..MAX_PIVOTS - 1).map(|i| format!("{shared}{i:02x} {edge}\n"));
    lines.collect::<String>() + &format!("{shared}3f\n")
}

#[test]
fn the_list_is_the_table_again() {
    let t = fs::read(root().join("examples/t.table")).expect("T");
    assert_eq!(list(&t), LIST_OF_T);
    assert_eq!(table(LIST_OF_T), t);
    assert_eq!(table(SHORT_T), t);
    for short in [&longest(), "- -\nmax\n", "ff -\nffff .\nmax\n"] {
        let made = table(short);
        let text = list(&made);
        assert_eq!(table(&text), made);
        assert_eq!(list(&table(&text)), text);
    }
    assert_eq!(list(&table(&longest())).len(), MAX_LIST);
}

#[test]
fn tables_are_read_from_files_too() {
    let folder = Folder::new();
    let text = folder.with("t.txt", SHORT_T);
    let t = folder.with("t.table", table(SHORT_T));
    assert_eq!(ran(&format!("table {text}"), "").done(), table(SHORT_T));
    assert_eq!(ran("table -", SHORT_T).done(), table(SHORT_T));
    assert_eq!(ran(&format!("list {t}"), "").text(), LIST_OF_T);
    assert_eq!(ran("list -", table(SHORT_T)).text(), LIST_OF_T);
}

/// What is said of standard input where T has these bytes at this place.
const FAULTS: [(usize, &[u8], &str); 10] = [
    (
        0,
        &[0, 65],
        "1: T begins with a count of 65, and a table has 2 to 64 pivots",
    ),
    (
        0,
        &[0, 1],
        "1: T begins with a count of 1, and a table has 2 to 64 pivots",
    ),
    (
        68,
        &[0, 65],
        "2: T, pivot 1 at byte 68: its length field is 65, and a key has at most 64 bytes",
    ),
    (
        199,
        &[1],
        "2: T, pivot 2 at byte 134: byte 199 is 01, and all bytes behind a key of length 1 are 00",
    ),
    (
        268,
        &[0xA0],
        "2: T, edge 1 at byte 266: byte 268 is a0, and all bytes behind the mark \"no edge\" are 00",
    ),
    (
        266,
        &[0xFF; 2],
        "2: T, edge 1 at byte 266: it has the mark max, which only a table's last pivot can have",
    ),
    (
        2,
        &[0xFF, 0xFE],
        "2: T, pivot 0 at byte 2: it has the mark \"no edge\", which only an edge can have",
    ),
    (
        71,
        b"0",
        "3: T, pivot 1 at byte 68: pivots don't rise strictly: 4130 isn't above 4130, which comes before it",
    ),
    (
        136,
        b"A",
        "3: T, pivot 2 at byte 134: pivots don't rise strictly: 41 isn't above 4135, which comes before it",
    ),
    (
        4,
        b"@",
        "4: T, edge 0 at byte 200: an edge where shared is empty: keys from 4030 up to 4135 share nothing",
    ),
];

/// Each command that reads a table says this of an input.
#[track_caller]
fn refused(input: &[u8], text: &str) {
    let line = format!("refused {}", text.replacen('T', "standard input", 1));
    for arguments in ["list -", "check -", "show - 4131", "cut left - 4131"] {
        ran(arguments, input).failed(1, &line);
    }
}

#[test]
fn a_refused_table_has_no_list() {
    for (place, bytes, text) in FAULTS {
        refused(&changed(place, bytes), text);
    }
    let t = table(SHORT_T);
    let size = |length| format!("1: T has {length} bytes, and a table of 3 pivots has 332");
    refused(&t[..331], &size("331"));
    refused(&[&t[..], &[0; 8384 - 332]].concat(), &size("8384"));
    refused(&[&t[..], &[0; 9000]].concat(), &size("over 8384"));
    let short = "1: T is too short: the smallest table has 200 bytes";
    refused(&[], short);
    refused(&[0], short);
    let text = "1: T is text; 'joistdenim table' makes a table of a list";
    refused(SHORT_T.as_bytes(), text);
}

/// What is said of T's list with another text in the place of one.
const SLIPS: [(&str, &str, &str); 5] = [
    (
        "\t41\t43",
        "\t42\t43",
        "line 2, column 13: what the keys of this slot share is 41",
    ),
    ("1\t4135", "2\t4135", "line 3, column 1: this is slot 1"),
    (
        "4135\t41",
        "4134\t41",
        "line 2, column 8: the next slot begins with 4135, so this one ends there",
    ),
    (
        "4130",
        "41x0",
        "line 2, column 5: 'x' is no hexadecimal digit",
    ),
    (
        "\t-",
        "",
        "line 3, column 1: a line of the list has 5 fields, and this has 4",
    ),
];

/// From standard input and from a file.
#[track_caller]
fn unread(text: &str, said: &str) {
    let line = format!("joistdenim: standard input, {said}");
    ran("table", text).failed(2, &line);
    let folder = Folder::new();
    let path = folder.with("t.txt", text);
    let line = format!("joistdenim: {path}, {said}");
    ran(&format!("table {path}"), "").failed(2, &line);
}

#[test]
fn a_text_at_fault_is_told_with_line_and_column() {
    for (old, new, said) in SLIPS {
        unread(&LIST_OF_T.replacen(old, new, 1), said);
    }
    let end =
        "line 2, column 1: the last line is missing, with the end of the table: a key or max alone";
    unread("4130 43\n", end);
    let end = "line 3, column 4: the last line is the end of the table: a key or max alone, without an edge";
    unread("4130 43\n4135 -\n42 -\n", end);
    let refused = "line 1, column 1: this says that a table was refused, and is no list";
    unread("refused\t3\n", refused);
    unread("\u{e9}\n", "line 1, column 1: 'é' is no hexadecimal digit");
}

#[test]
fn a_text_may_say_what_is_no_table() {
    for (text, said) in [
        (
            "42\n",
            "1: standard input, line 2, column 1: a table has 2 to 64 pivots, and this has 1",
        ),
        (
            "41 -\n40 -\nmax\n",
            "3: standard input, line 2, column 1: pivots don't rise strictly: 40 isn't above 41, which comes before it",
        ),
        (
            "41 43\nmax\n",
            "4: standard input, line 1, column 4: an edge where shared is empty: keys from 41 up to max share nothing; no edge is written -",
        ),
    ] {
        ran("table", text).failed(1, &format!("refused {said}"));
    }
    let long = format!("41 {}\n42\n", "43".repeat(MAX_LEN + 1));
    let said = "line 1, column 4: a key has at most 64 bytes, and this one has 65";
    ran("table", long).failed(1, &format!("refused 2: standard input, {said}"));
}

/// With and without a mark, in either byte order.
#[test]
fn text_in_utf_16_is_told() {
    for text in [SHORT_T, LIST_OF_T, "\r\n", "# \u{e9}\n- -\nmax"] {
        for mark in ["\u{feff}", ""] {
            let units: Vec<u16> = format!("{mark}{text}").encode_utf16().collect();
            for to_bytes in [u16::to_le_bytes, u16::to_be_bytes] {
                let bytes: Vec<u8> = units.iter().flat_map(|unit| to_bytes(*unit)).collect();
                let line = "standard input is text in UTF-16: save it as UTF-8";
                ran("table", &bytes).failed(2, &format!("joistdenim: {line}"));
                let bucket = ran("bucket translate 41 43 -", &bytes);
                bucket.failed(2, &format!("joistdenim: {line}"));
                let way = "'joistdenim table' makes a table of a list";
                ran("list -", &bytes).failed(1, &format!("refused 1: {line}, and {way}"));
                let bucket = ran("bucket translate --bytes 41 43 -", &bytes);
                bucket.failed(
                    1,
                    &format!("refused 1: {line}, and without --bytes it is read"),
                );
            }
        }
    }
    // An edge's record, which begins as a text with a mark may.
    let record = [&[0xFF, 0xFE][..], &[0; MAX_LEN]].concat();
    let count = "standard input begins with a count of 65534, and a table has 2 to 64 pivots";
    ran("list -", record).failed(1, &format!("refused 1: {count}"));
    // A count alone.
    let size = "standard input has 2 bytes, and a table of 48 pivots has 6272";
    ran("list -", [0, 48]).failed(1, &format!("refused 1: {size}"));
}

#[test]
fn bytes_are_no_text_and_comments_are_any() {
    let hint = "joistdenim: standard input is no text; 'joistdenim list' makes a list of a table";
    ran("table", table(SHORT_T)).failed(2, hint);
    let latin = [&b"# Ausgabe f\xFCr T\n"[..], SHORT_T.as_bytes()].concat();
    assert_eq!(ran("table", latin).done(), table(SHORT_T));
    let long = [SHORT_T.as_bytes(), &[b'#'; 1 << 20]].concat();
    let line = "joistdenim: standard input: over 1048576 bytes, which is no such text";
    ran("table", &long).failed(2, line);
    assert_eq!(ran("table", &long[..1 << 20]).done(), table(SHORT_T));
}

const NOT_ABOVE: &str =
    "pivot 1 at byte 68: pivots don't rise strictly: 4130 isn't above 4130, which comes before it";

#[test]
fn tables_are_checked_each() {
    let folder = Folder::new();
    let good = folder.with("good", table(SHORT_T));
    let all = folder.with("all", table("- -\n41 -\n42 43\n43 -\nmax\n"));
    let bad = folder.with("bad", changed(71, b"0"));
    let none = folder.at("none");
    let well = format!("{good}: well formed, 3 pivots, 2 slots, 1 with an edge\n");
    let of_all = format!("{all}: well formed, 5 pivots, 4 slots, 1 with an edge, all keys\n");
    let refused = format!("refused 3: {bad}, {NOT_ABOVE}\n");
    let missing = format!("joistdenim: {none}: No such file or directory\n");
    let checked = ran(&format!("check {good} {all}"), "");
    assert_eq!(checked.text(), format!("{well}{of_all}"));
    let checked = ran(&format!("check {bad} {good}"), "");
    assert_eq!((checked.status, checked.errors), (1, refused.clone()));
    assert_eq!(checked.output, well.as_bytes());
    let checked = ran(&format!("check {none} {bad} {all}"), "");
    assert_eq!((checked.status, checked.errors), (2, missing + &refused));
    assert_eq!(checked.output, of_all.as_bytes());
    let line = "standard input: well formed, 2 pivots, 1 slot, 0 with an edge\n";
    assert_eq!(ran("check -", table("41 -\n42\n")).text(), line);
    let report = folder.at("report");
    assert_eq!(ran(&format!("check {good} -o {report}"), "").text(), "");
    assert_eq!(fs::read(&report).expect("a report"), well.as_bytes());
    let checked = ran(&format!("check {good} {bad} -o {report}2"), "");
    checked.failed(1, refused.trim_end());
    assert!(fs::metadata(format!("{report}2")).is_err());
}
