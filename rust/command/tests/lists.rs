//! `list --short` and `--text`: what is printed, and that it is read back to the same bytes.
mod support;

use support::{ran, root, table, LIST_OF_T, SHORT_T};

/// T in the short form, as it is printed.
const PRINTED_T: &str = "left\tedge\n4130\t41>43\n4135\t-\n42\n";

#[test]
fn the_short_form_is_printed() {
    let t = table(SHORT_T);
    assert_eq!(ran("list --short -", &t).text(), PRINTED_T);
    assert_eq!(table(PRINTED_T), t);
    let path = root().join("examples/stripped.table");
    let stripped = ran(&format!("list --short {}", path.display()), "").text();
    let printed = "left\tedge\n-\t-\n4130\t41>.\n4135\t41>43\n42\t-\nmax\n";
    assert_eq!(stripped, printed);
}

/// By hand 4135 is made 4131: with 43 alone that is another table, in which 41 30 07 becomes 43 07.
#[test]
fn a_moved_bound_is_told() {
    let said = "what the keys of this slot share is 4130; for 41 to become 43, the edge is 4330";
    let moved = PRINTED_T.replace("4135", "4131");
    let line = format!("joistdenim: standard input, line 2, column 6: {said}");
    ran("table", &moved).failed(2, &line);
    let renamed = |text: &str| ran("show --tsv - 413007", table(text)).text();
    assert!(renamed(PRINTED_T).contains("\t433007\t"));
    assert!(renamed(&SHORT_T.replace("4135", "4131")).contains("\t4307\t"));
    assert!(renamed(&moved.replace("41>43", "4130>4330")).contains("\t433007\t"));
}

#[test]
fn a_list_has_no_sign_before_an_edge() {
    let text = LIST_OF_T.replace("\t43", "\t41>43");
    let said = "in a list the field shared says what is replaced: write the edge alone";
    let line = format!("joistdenim: standard input, line 2, column 18: {said}");
    ran("table", text).failed(2, &line);
}

#[test]
fn characters_stand_behind_each_line() {
    let t = table(SHORT_T);
    let full = "slot\tleft\tright\tshared\tedge\n\
                0\t4130\t4135\t41\t43\t# \"A0\" \"A5\" \"A\" \"C\"\n\
                1\t4135\t42\t41\t-\t# \"A5\" \"B\" \"A\" -\n";
    assert_eq!(ran("list --text -", &t).text(), full);
    let short = "left\tedge\n\
                 4130\t41>43\t# \"A0\" \"A\">\"C\"\n\
                 4135\t-\t# \"A5\" -\n\
                 42\t# \"B\"\n";
    assert_eq!(ran("list --text --short -", &t).text(), short);
    let marks = table("- -\nff0a .\nmax\n");
    let full = "slot\tleft\tright\tshared\tedge\n\
                0\t-\tff0a\t-\t-\t# - \"\\xff\\n\" - -\n\
                1\tff0a\tmax\tff\t.\t# \"\\xff\\n\" max \"\\xff\" .\n";
    assert_eq!(ran("list --text -", &marks).text(), full);
    let short = ran("list --short --text -", &marks).text();
    assert!(short.ends_with("\tff>.\t# \"\\xff\\n\" \"\\xff\">.\nmax\t# max\n"));
}

/// Keys with what begins a comment, ends a field or a line, or quotes; and bytes that are none of
/// ASCII.
#[test]
fn what_is_printed_is_read_back() {
    let keys = [
        "#", "a#b", "tab\t", "line\n", "line\r\n", "\"", "'", "a > b", "a>b", "\\", "\0", " ",
        "\u{feff}", "\u{e9}", "max", "refused", "left", "-",
    ];
    let digits = |key: &str| {
        key.bytes()
            .map(|byte| format!("{byte:02x}"))
            .collect::<String>()
    };
    for key in keys.map(digits) {
        let written = format!("{key} {key}>{key}\n{key}00 -\n{key}22 {key}>.\n{key}ff -\nmax\n");
        let bytes = table(&written);
        for options in ["", "--text", "--short", "--short --text"] {
            let printed = ran(&format!("list {options} -"), &bytes).text();
            assert_eq!(table(&printed), bytes, "{printed}");
        }
    }
}

#[test]
fn a_refused_table_has_no_short_form() {
    let short = "refused 1: standard input is too short: the smallest table has 200 bytes";
    ran("list --short --text -", "").failed(1, short);
}
