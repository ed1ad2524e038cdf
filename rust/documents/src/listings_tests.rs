//! Each way in which a list, an order or a count of refusals can be wrong, tried on a sample with three of them.
use crate::listings::check;
use crate::numbering::{in_words, DEFINITIONS};
use crate::places::{place, Place, Says, PLACES};
use crate::repository::Repository;
use crate::sample::replaced;

const HEADER: &str = "include/shelf.h";
const CODE: &str = "crates/shelf/src/lib.rt";
const ROWS: &str = "crates/shelf/proofs/Rows.antt";
const TEXT: &str = "docs/SHELF.md";

const SHELF: [Place; 8] = [
    place(CODE, Says::Lines("{name},"), "enum Refusal {", "}"),
    place(HEADER, Says::Lines("{c} = {number}*"), "enum jd {", "}"),
    place(HEADER, Says::Order, "in the order ", "."),
    place(HEADER, Says::Last, "i <= ", ";"),
    place(ROWS, Says::Names("∷"), "\nrefusals =", "[]"),
    place(ROWS, Says::Count, "one_to_", " :"),
    place(
        TEXT,
        Says::Lines("| {number} | `{name}` | *"),
        "|---|---|---|",
        "",
    ),
    place(TEXT, Says::Count, "1 to ", "."),
];

const FILES: [(&str, &str); 5] = [
    (
        DEFINITIONS,
        "number : Refusal → ℕ
number Shape = 1
number NoRoom = 2
number NotMeeting = 3

turn Shape = 1
turn NotMeeting = 2
turn NoRoom = 3
",
    ),
    (
        CODE,
        "pub enum Refusal {\n    Shape,\n    NoRoom,\n    NotMeeting,\n}\n",
    ),
    (
        HEADER,
        "/*
 * The first that applies, in the order 1, 3,
 *   2.
 */
enum jd {
    JD_SHAPE = 1,      /* no records */
    JD_NO_ROOM = 2,    /* too short */
    JD_NOT_MEETING = 3 /* apart */
};
for (i = 1; i <= JD_NOT_MEETING; i++)
",
    ),
    (
        ROWS,
        "-- all\nrefusals =\n    Shape ∷ NoRoom ∷\n    NotMeeting ∷ []\n\nabbrev one_to_three : A\n",
    ),
    (
        TEXT,
        "Numbers go from 1 to 3.

| number | name | cause |
|---|---|---|
| 1 | `Shape` | no records |
| 2 | `NoRoom` | too short |
| 3 | `NotMeeting` | apart |

The end.
",
    ),
];

fn told(repository: &Repository) -> Vec<String> {
    check(repository, &SHELF).failures
}

/// A change of one file makes this the one failure.
fn change(path: &str, from: &str, to: &str, wanted: &str) {
    assert_eq!(told(&replaced(&FILES, path, from, to)), [wanted]);
}

#[test]
fn where_all_agree_each_piece_is_counted() {
    let report = check(&Repository::of(&FILES), &SHELF);
    assert_eq!((report.passed, report.failures), (18, vec![]));
}

#[test]
fn one_missing() {
    let wanted = "crates/shelf/src/lib.rt:3: `NoRoom,` is expected, found `NotMeeting,`";
    change(CODE, "    NoRoom,\n", "", wanted);
    let wanted = "crates/shelf/src/lib.rt:4: `NotMeeting,` is missing";
    change(CODE, "    NotMeeting,\n", "", wanted);
    let wanted = "include/shelf.h:8: `JD_NOT_MEETING = 3*` is missing";
    change(HEADER, "    JD_NOT_MEETING = 3 /* apart */\n", "", wanted);
    let wanted = "include/shelf.h:3: `3` is expected, found `2`";
    change(HEADER, "1, 3,", "1,", wanted);
    let wanted = "crates/shelf/proofs/Rows.antt:4: `NotMeeting` is missing";
    change(ROWS, "NotMeeting ∷ ", "", wanted);
    let wanted = "docs/SHELF.md:7: `| 3 | `NotMeeting` | *` is missing";
    change(TEXT, "| 3 | `NotMeeting` | apart |\n", "", wanted);
}

#[test]
fn one_too_many() {
    let wanted = "crates/shelf/src/lib.rt:5: `Late,` is one too many";
    change(CODE, "NotMeeting,\n", "NotMeeting,\n    Late,\n", wanted);
    let wanted = "include/shelf.h:9: `JD_LATE = 4` is one too many";
    change(HEADER, "};", "    JD_LATE = 4\n};", wanted);
    let wanted = "include/shelf.h:3: `4` is one too many";
    change(HEADER, "  2.", "  2, 4.", wanted);
    let wanted = "crates/shelf/proofs/Rows.antt:4: `Late` is one too many";
    change(ROWS, "[]", "Late ∷ []", wanted);
    let wanted = "docs/SHELF.md:8: `| 4 | `Late` | late |` is one too many";
    change(
        TEXT,
        "apart |\n",
        "apart |\n| 4 | `Late` | late |\n",
        wanted,
    );
    let wanted = "crates/shelf/src/lib.rt:3: `NoRoom,` is expected, found `NoRoom, Late,`";
    change(CODE, "NoRoom,", "NoRoom, Late,", wanted);
    let wanted = "crates/shelf/src/lib.rt:6: `Late,` is one too many";
    change(CODE, "NotMeeting,\n", "NotMeeting,\n\n    Late,\n", wanted);
}

#[test]
fn exchanged_numbers() {
    let of_header = |line: usize, wanted: &str, found: &str| {
        format!("{HEADER}:{line}: `{wanted}*` is expected, found `{found}`")
    };
    let found = "JD_NO_ROOM = 3,    /* too short */";
    let wanted = of_header(7, "JD_NO_ROOM = 2", found);
    change(HEADER, "ROOM = 2", "ROOM = 3", &wanted);
    let found = "JD_NOT_MEETING = 30 /* apart */";
    let wanted = of_header(8, "JD_NOT_MEETING = 3", found);
    change(HEADER, "= 3 ", "= 30 ", &wanted);
    let found = "| 3 | `NoRoom` | too short |";
    let wanted = format!("{TEXT}:6: `| 2 | `NoRoom` | *` is expected, found `{found}`");
    change(TEXT, "| 2 |", "| 3 |", &wanted);
}

#[test]
fn exchanged_order() {
    let wanted = "include/shelf.h:2: `3` is expected, found `2`";
    change(HEADER, "1, 3,\n *   2.", "1, 2,\n *   3.", wanted);
    let wanted = "crates/shelf/src/lib.rt:3: `NoRoom,` is expected, found `NotMeeting,`";
    change(
        CODE,
        "NoRoom,\n    NotMeeting",
        "NotMeeting,\n    NoRoom",
        wanted,
    );
    let wanted = "crates/shelf/proofs/Rows.antt:3: `Shape` is expected, found `NoRoom`";
    change(ROWS, "Shape ∷ NoRoom", "NoRoom ∷ Shape", wanted);
}

#[test]
fn another_count_or_last() {
    let wanted = "crates/shelf/proofs/Rows.antt:6: `three` is expected, found `two`";
    change(ROWS, "one_to_three", "one_to_two", wanted);
    let wanted = "docs/SHELF.md:1: `3` is expected, found `15`";
    change(TEXT, "1 to 3", "1 to 15", wanted);
    let wanted = "include/shelf.h:10: `JD_NOT_MEETING` is expected, found `JD_NO_ROOM`";
    change(HEADER, "<= JD_NOT_MEETING", "<= JD_NO_ROOM", wanted);
}

#[test]
fn a_second_refusal_on_a_line() {
    let of_each = Says::Lines("{name}: \"*\",");
    let places = [place("a.rs", of_each, "{", "}")];
    let told = |text: &str| check(&Repository::of(&[FILES[0], ("a.rs", text)]), &places).failures;
    let right = "{\n  // all\n  Shape: \"a\",\n\n  NoRoom: \"b\",\n  NotMeeting: \"c\",\n}\n";
    assert!(told(right).is_empty());
    let two = right.replace("\"b\",", "\"b\", Late: \"d\",");
    let wanted = "a.rs:5: `NoRoom: \"*\",` is expected, found `NoRoom: \"b\", Late: \"d\",`";
    assert_eq!(told(&two), [wanted]);
}

#[test]
fn a_place_that_isnt_found() {
    let wanted = "crates/shelf/src/lib.rt:1: `enum Refusal {` isn't there";
    change(CODE, "enum Refusal", "enum Cause", wanted);
    let wanted = "docs/SHELF.md:9: `1 to` is there again";
    change(TEXT, "The end", "From 1 to 3", wanted);
    let wanted = "crates/shelf/proofs/Rows.antt:2: no `[]` ends it";
    change(ROWS, "[]", "none", wanted);
}

#[test]
fn a_new_refusal_fails_at_each_place_until_it_is_there() {
    let turn = "turn NoRoom = 3\n";
    let late = "turn Late = 3\nturn NoRoom = 4\nnumber Late = 4\n";
    let found = told(&replaced(&FILES, DEFINITIONS, turn, late));
    let lines: Vec<&str> = found.iter().filter_map(|f| f.split(": ").next()).collect();
    let wanted = [
        "crates/shelf/src/lib.rt:5",
        "include/shelf.h:9",
        "include/shelf.h:3",
        "include/shelf.h:10",
        "crates/shelf/proofs/Rows.antt:4",
        "crates/shelf/proofs/Rows.antt:6",
        "docs/SHELF.md:8",
        "docs/SHELF.md:1",
    ];
    assert_eq!(lines, wanted, "{found:#?}");
}

#[test]
fn definitions_that_dont_agree() {
    let here = |line: usize, fault: &str| format!("{DEFINITIONS}:{line}: {fault}");
    let told = |from, to| told(&replaced(&FILES, DEFINITIONS, from, to));
    let wanted = here(4, "`number NotMeeting = 4` stands where 3 is due");
    assert!(told("NotMeeting = 3", "NotMeeting = 4").contains(&wanted));
    let wanted = here(8, "`turn NoRoom = 2` stands where 3 is due");
    assert!(told("NoRoom = 3", "NoRoom = 2").contains(&wanted));
    let wanted = here(4, "`NotMeeting` has no turn");
    assert!(told("turn NotMeeting = 2\n", "").contains(&wanted));
    let wanted = here(6, "`NotMeeting` has no number");
    assert!(told("number NotMeeting = 3\n", "").contains(&wanted));
    let none = Repository::of(&[(DEFINITIONS, "")]);
    let wanted = here(1, "no clause of `number` is there");
    assert_eq!(check(&none, &SHELF).failures, [wanted]);
}

#[test]
fn what_the_table_doesnt_have() {
    let with = |path, text| told(&Repository::of(&[&FILES[..], &[(path, text)]].concat()));
    let names = "JD_SHAPE, JD_NO_ROOM,\nJD_NOT_MEETING";
    let wanted = "include/more.h:1: it names all refusals, and is no place of the table";
    assert_eq!(with("include/more.h", names), [wanted]);
    let wanted = "docs/A.md:2: `1, 3, 2` is no place of the table";
    assert_eq!(with("docs/A.md", "They go\n1, 3, 2.\n"), [wanted]);
    let wanted = "docs/A.md:1: `three refusals` is no place of the table";
    assert_eq!(with("docs/A.md", "The three refusals.\n"), [wanted]);
    assert!(with("docs/changes/A.md", "1, 3, 2\n").is_empty());
    assert!(with("include/more.h", "JD_SHAPE, JD_NO_ROOM").is_empty());
}

#[test]
fn counts_as_words() {
    let words = [
        (15, "fifteen"),
        (20, "twenty"),
        (21, "twenty-one"),
        (99, "ninety-nine"),
    ];
    for (count, word) in words {
        assert_eq!(in_words(count), word);
    }
}

#[test]
fn the_table_itself_has_no_count() {
    for place in PLACES {
        let both = format!("{}{}", place.from, place.to).to_lowercase();
        let counted = (12..30).find(|n| both.contains(&in_words(*n)));
        assert_eq!(counted, None, "{}", place.path);
    }
}
