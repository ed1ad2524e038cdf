//! Tables and buckets read from text: the list, what a person may write otherwise, and each fault
//! with its line and column.
mod support;

use joistdenim::{Bucket, Number, Refusal, Table, MAX_ENTRIES, MAX_LEN, MAX_PIVOTS};
use support::{all_are_t, faults_of_tables, said, t, Said, LIST_OF_T};

#[test]
fn a_list_is_read_back() {
    for text in [
        LIST_OF_T,
        "slot\tleft\tright\tshared\tedge\n0\t-\tmax\t-\t-\n",
        "slot\tleft\tright\tshared\tedge\n0\tff0a\tmax\tff\t.\n",
        "slot\tleft\tright\tshared\tedge\n0\t-\t4130\t-\t-\n1\t4130\t4135\t41\t.\n2\t4135\tmax\t-\t-\n",
    ] {
        let table: Table = text.parse().expect(text);
        assert_eq!(table.to_string(), text);
        assert_eq!(Table::try_from(&table.to_bytes()[..]).as_ref(), Ok(&table));
    }
}

#[test]
fn a_list_may_be_written_otherwise() {
    all_are_t(&[
        &LIST_OF_T.replace('\t', " "),
        &LIST_OF_T.replace('\t', "   "),
        &LIST_OF_T.replace('\t', "\t\t"),
        &LIST_OF_T.replace('\n', "\r\n"),
        &LIST_OF_T.replace('\n', "\n\n"),
        &LIST_OF_T.replace('\n', " # a comment\n # another\n"),
        &format!("\u{feff}{LIST_OF_T}"),
        &format!("  {}", LIST_OF_T.trim_end()),
        &LIST_OF_T["slot\tleft\tright\tshared\tedge\n".len()..],
        &LIST_OF_T.replace("slot\tleft", "Slot\tLEFT"),
    ]);
    let all: Table = "0 - max - -\n".parse().expect("all keys");
    for max in ["MAX", "Max", "mAX"] {
        assert_eq!(format!("0 - {max} - -\n").parse().as_ref(), Ok(&all));
    }
    let capitals = "0 4A 4B 4A 4C\n".parse::<Table>().expect("capitals");
    assert_eq!(capitals, "0 4a 4b 4a 4c\n".parse().expect("small letters"));
}

const ENDS_THERE: &str = "the next slot begins with 4135, so this one ends there";
const SHARE_41: &str = "what the keys of this slot share is 41";
const ALL_FROM_43: &str =
    "what the keys of this slot share is 41; for - to become 43, the edge is 4341";
const IN_A_LIST: &str = "in a list the field shared says what is replaced: write the edge alone";
const ONLY_THE_END: &str = "max can only be the end of the table";
const FOUR_FIELDS: &str = "a line of the list has 5 fields, and this has 4";
const SIX_FIELDS: &str = "a line of the list has 5 fields, and this has 6";
const NO_LIST: &str = "this says that a table was refused, and is no list";

/// What is said of T's list, with spaces, and with another text in the place of one.
const SLIPS: [(&str, &str, Said<'static>); 18] = [
    ("0 4130", "1 4130", (2, 1, "this is slot 0", 0)),
    ("1 4135", "01 4135", (3, 1, "this is slot 1", 0)),
    ("4135 41", "4136 41", (2, 8, ENDS_THERE, 0)),
    ("4135 41", "max 41", (2, 8, ENDS_THERE, 0)),
    ("41 43", "4130 43", (2, 13, SHARE_41, 0)),
    ("41 43", "- 43", (2, 13, ALL_FROM_43, 0)),
    ("41 43", "41 41>43", (2, 18, IN_A_LIST, 0)),
    ("41 -", "41 é>-", (3, 15, IN_A_LIST, 0)),
    ("41 -", "42 -", (3, 11, SHARE_41, 0)),
    (" 41 43", " 43", (2, 1, FOUR_FIELDS, 0)),
    ("41 -", "41 - -", (3, 1, SIX_FIELDS, 0)),
    ("4130", "413g", (2, 6, "'g' is no hexadecimal digit", 0)),
    (
        "4130",
        "413",
        (2, 6, "a byte has two digits, and the last has one", 0),
    ),
    ("4130", "max", (2, 3, ONLY_THE_END, 0)),
    ("4130", "Max", (2, 3, ONLY_THE_END, 0)),
    (
        "4130",
        "4130\u{a0}",
        (2, 7, "'\\u{a0}' is no hexadecimal digit", 0),
    ),
    ("41 43", ". 43", (2, 13, "'.' is no hexadecimal digit", 0)),
    ("41 43", "41 max", (2, 16, "'m' is no hexadecimal digit", 0)),
];

#[test]
fn faults_of_a_list() {
    let list = LIST_OF_T.replace('\t', " ");
    for (old, new, said) in SLIPS {
        faults_of_tables(&[(&list.replacen(old, new, 1), said)]);
    }
    faults_of_tables(&[("refused\t1\n", (1, 1, NO_LIST, 0))]);
}

#[test]
fn a_moved_bound_changes_what_is_shared() {
    let moved = LIST_OF_T.replace("4135", "4131");
    let said = "what the keys of this slot share is 4130; for 41 to become 43, the edge is 4330";
    faults_of_tables(&[(&moved, (2, 13, said, 0))]);
    let mended = moved.replace("\t41\t43", "\t4130\t4330");
    let mended: Table = mended.parse().expect("with that edge");
    let key = "413007".parse().expect("a key");
    assert_eq!(mended.translate_key(&key), t().translate_key(&key));
    // Nothing is replaced without an edge, and a new one that is too long can't be written.
    let share = "what the keys of this slot share is 4130";
    let long = moved.replace("43\n", &format!("{}\n", "43".repeat(MAX_LEN)));
    let none = moved.replace("43\n", "-\n");
    faults_of_tables(&[(&long, (2, 13, share, 0)), (&none, (2, 13, share, 0))]);
}

#[test]
fn refused_tables() {
    let not_above = |upper, lower| {
        format!("pivots don't rise strictly: {upper} isn't above {lower}, which comes before it")
    };
    let number = |count| format!("a table has 2 to 64 pivots, and this has {count}");
    let empty = |left, right| {
        format!("an edge where shared is empty: keys from {left} up to {right} share nothing; no edge is written -")
    };
    let long = format!("41 -\n{} -\n42\n", "41".repeat(MAX_LEN + 1));
    let many: String = (0..70).map(|i| format!("41{i:02x} -\n")).collect();
    faults_of_tables(&[
        ("42\n", (2, 1, &number(1), 1)),
        (&format!("{many}42\n"), (MAX_PIVOTS + 1, 1, &number(71), 1)),
        (
            &long,
            (2, 1, "a key has at most 64 bytes, and this one has 65", 2),
        ),
        ("41 -\n40 -\nmax\n", (2, 1, &not_above("40", "41"), 3)),
        ("41 -\n41 -\nmax\n", (2, 1, &not_above("41", "41"), 3)),
        ("41 -\n42 -\n42\n", (3, 1, &not_above("42", "42"), 3)),
        ("41 -\n -  -\nmax\n", (2, 2, &not_above("-", "41"), 3)),
        ("0 41 40 41 -\n", (1, 6, &not_above("40", "41"), 3)),
        ("41 43\nmax\n", (1, 4, &empty("41", "max"), 4)),
        ("4130 -\n4135 .\n43\n", (2, 6, &empty("4135", "43"), 4)),
    ]);
    let error = "41 -\n40\n".parse::<Table>().unwrap_err();
    let text = format!("line 2, column 1: refusal 3: {}", not_above("40", "41"));
    assert_eq!(error.to_string(), text);
    let error = "4x -\n40\n".parse::<Table>().unwrap_err();
    assert_eq!(
        error.to_string(),
        "line 1, column 2: 'x' is no hexadecimal digit"
    );
}

#[test]
fn the_text_is_read_before_the_table_is_checked() {
    let error = "41 -\n40 -\n4x\n".parse::<Table>().unwrap_err();
    assert_eq!((error.line(), error.refusal()), (3, None));
    let unsorted = "0 41 40 07 -\n".parse::<Table>().unwrap_err();
    assert_eq!(unsorted.refusal(), Some(Refusal::Unsorted));
}

#[test]
fn buckets_are_read() {
    let bucket: Bucket = "4130\t7\n-\t0\n".parse().expect("a bucket");
    let written = "# drawer\n\n 4130   007 # seven\r\n - 0";
    assert_eq!(written.parse().as_ref(), Ok(&bucket));
    assert_eq!("".parse::<Bucket>(), Ok(Bucket::default()));
    let last = format!("41\t{}\n", Number::MAX);
    assert_eq!(last.parse::<Bucket>().expect("a bucket").to_string(), last);
}

#[test]
fn faults_of_buckets() {
    let number = "a number goes from 0 to 4294967295";
    let fields = |count| {
        format!("a line of a bucket has 2 fields, a key and a number, and this has {count}")
    };
    let many = "41 7\n".repeat(MAX_ENTRIES + 1);
    let cases = [
        ("41", (1, 1, fields(1), 0)),
        ("41 7\n41 7 8\n", (2, 1, fields(3), 0)),
        ("41 x\n", (1, 4, number.to_string(), 0)),
        ("41 +7\n", (1, 4, number.to_string(), 0)),
        ("41 -7\n", (1, 4, number.to_string(), 0)),
        ("41 4294967296\n", (1, 4, number.to_string(), 0)),
        (
            "4 7\n",
            (
                1,
                2,
                "a byte has two digits, and the last has one".into(),
                0,
            ),
        ),
        ("max 7\n", (1, 1, "'m' is no hexadecimal digit".into(), 0)),
        (
            &many,
            (
                MAX_ENTRIES + 1,
                1,
                "a bucket has at most 512 entries, and this has 513".into(),
                1,
            ),
        ),
    ];
    for (text, wanted) in cases {
        assert_eq!(
            said(&text.parse::<Bucket>().expect_err(text)),
            wanted,
            "{text:?}"
        );
    }
    assert!(many["41 7\n".len()..].parse::<Bucket>().is_ok());
}
