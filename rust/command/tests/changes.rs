//! `cut`, `insert` and `join`: what they write, and what is refused.
mod support;

use joistdenim::{MAX_LEN, MAX_PIVOTS};
use support::{list, ran, table, Folder, SHORT_T};

/// The short form's table after these arguments, with the table on standard input.
fn changed(arguments: &str, before: &str) -> Vec<u8> {
    ran(arguments, table(before)).done()
}

#[track_caller]
fn refused(arguments: &str, before: &str, line: &str) {
    ran(arguments, table(before)).failed(1, &format!("refused {line}"));
}

#[test]
fn a_table_is_cut() {
    assert_eq!(
        changed("cut left - 4131", SHORT_T),
        table("4130 4330\n4131\n")
    );
    assert_eq!(
        changed("cut right - 4131", SHORT_T),
        table("4131 43\n4135 -\n42\n")
    );
    assert_eq!(changed("cut left - 42", SHORT_T), table(SHORT_T));
    assert_eq!(changed("cut right - 4130", SHORT_T), table(SHORT_T));
    assert_eq!(
        changed("cut left --text - A1", SHORT_T),
        changed("cut left - 4131", SHORT_T)
    );
    let empty = changed("cut right - -", "- -\n41 -\nmax\n");
    assert_eq!(empty, table("- -\n41 -\nmax\n"));
}

#[test]
fn both_orders_of_two_cuts_leave_the_same() {
    let low = ran("cut right - 4131", table(SHORT_T)).done();
    let high = ran("cut left - 4136", table(SHORT_T)).done();
    let one = ran("cut left - 4136", low).done();
    let other = ran("cut right - 4131", high).done();
    assert_eq!(one, other);
    let text = "slot\tleft\tright\tshared\tedge\n0\t4131\t4135\t41\t43\n1\t4135\t4136\t4135\t-\n";
    assert_eq!(list(&one), text);
}

#[test]
fn a_key_is_inserted() {
    assert_eq!(
        changed("insert - 4131", SHORT_T),
        table("4130 4330\n4131 43\n4135 -\n42\n")
    );
    assert_eq!(
        changed("insert --text - A1", SHORT_T),
        changed("insert - 4131", SHORT_T)
    );
}

#[test]
fn two_tables_are_joined() {
    let folder = Folder::new();
    let low = folder.with("low", changed("cut left - 4131", SHORT_T));
    let high = changed("cut right - 4131", SHORT_T);
    let joined = ran(&format!("join {low} -"), &high).done();
    assert_eq!(joined, changed("insert - 4131", SHORT_T));
    let high = folder.with("high", high);
    assert_eq!(ran(&format!("join {low} {high}"), "").done(), joined);
    let line = "the tables don't meet: the first ends with 42, the second begins with 4130";
    ran(&format!("join {high} {low}"), "").failed(1, &format!("refused 13: {line}"));
    let full: String = (0..MAX_PIVOTS - 1)
        .map(|i| format!("40{i:02x} -\n"))
        .collect();
    let full = folder.with("full", table(&format!("{full}4130\n")));
    let line = "refused 12: the table would have more than 64 pivots";
    ran(&format!("join {full} {low}"), "").failed(1, line);
}

#[test]
fn a_key_must_be_inside() {
    let [left, right, inside] = [
        "5: the key must be above 4130 and not above 42, and",
        "5: the key must be not below 4130, and below 42, and",
        "5: the key must be above 4130 and below 42, and",
    ];
    refused("cut left - 4130", SHORT_T, &format!("{left} 4130 isn't"));
    refused("cut left - 4200", SHORT_T, &format!("{left} 4200 isn't"));
    refused("cut right - 412f", SHORT_T, &format!("{right} 412f isn't"));
    refused("cut right - 42", SHORT_T, &format!("{right} 42 isn't"));
    refused("insert - -", SHORT_T, &format!("{inside} - isn't"));
    refused("insert - 43", SHORT_T, &format!("{inside} 43 isn't"));
    refused("insert - 4130", SHORT_T, "11: 4130 is already a pivot");
    refused("insert - 42", SHORT_T, "11: 42 is already a pivot");
}

#[test]
fn other_refusals() {
    let full: String = (0..MAX_PIVOTS - 1)
        .map(|i| format!("41{:02x} -\n", 2 * i))
        .collect();
    let full = format!("{full}42\n");
    let line = "12: the table would have more than 64 pivots";
    refused("insert - 4101", &full, line);
    let long = format!("4130 {}\n4135\n", "43".repeat(MAX_LEN - 1));
    let line = "8: at 4134ff05 an edge would pass 64 bytes";
    refused("cut right - 4134ff05", &long, line);
    refused("insert - 4134ff05", &long, line);
}

/// Of several refusals the one is told that the library's call answers: 1 of each argument, then 2
/// of each, and so on.
#[test]
fn the_first_refusal_over_all_arguments() {
    let folder = Folder::new();
    let mut unsorted = table("41 -\n42\n");
    unsorted[4] = 0x43;
    folder.with("unsorted", unsorted);
    let mut marked = table("41 -\n42\n");
    marked[2..5].copy_from_slice(&[0xFF, 0xFF, 0]);
    folder.with("marked", marked);
    folder.with("short", &table(SHORT_T)[..331]);
    let long = "41".repeat(MAX_LEN + 1);
    let refused = |arguments: &str, line: &str| {
        let whole = |text: &str| text.replace("DIR/", &folder.at("")).replace("LONG", &long);
        ran(&whole(arguments), "").failed(1, &whole(&format!("refused {line}")));
    };
    let rises = "3: DIR/unsorted, pivot 1 at byte 68: pivots don't rise strictly: 42 isn't above 43, which comes before it";
    let mark = "2: DIR/marked, pivot 0 at byte 2: it has the mark max, which only a table's last pivot can have";
    let key = "2: LONG has 65 bytes, and a key has at most 64";
    let short = "1: DIR/short has 331 bytes, and a table of 3 pivots has 332";
    refused("join DIR/unsorted DIR/marked", mark);
    refused("join DIR/marked DIR/unsorted", mark);
    refused("join DIR/unsorted DIR/unsorted", rises);
    refused("cut left DIR/unsorted 41", rises);
    refused("cut left DIR/unsorted LONG", key);
    refused("cut right DIR/marked LONG", mark);
    refused("insert DIR/unsorted LONG", key);
    refused("insert DIR/short LONG", short);
}
