//! Keys as people write them, for every command that takes one: bytes in a row, or parted by spaces
//! or colons.
mod support;

use support::shown::lines;
use support::{ran, ran_each, table, Ran, SHORT_T};

/// Commands that take a key, and what they are given on standard input.
fn commands() -> Vec<(&'static str, Vec<u8>)> {
    let t = table(SHORT_T);
    let bucket = b"413107 7\n42 1\n".to_vec();
    vec![
        ("show - KEY", t.clone()),
        ("show --tsv - KEY", t.clone()),
        ("cut left - KEY", t.clone()),
        ("cut right - KEY", t.clone()),
        ("insert - KEY", t),
        ("bucket translate KEY 44 -", bucket.clone()),
        ("bucket translate 41 KEY -", bucket),
    ]
}

/// With a key that may have spaces.
fn with_key(arguments: &str, key: &str, input: &[u8]) -> Ran {
    let words = arguments.split(' ').map(|word| match word {
        "KEY" => key,
        _ => word,
    });
    ran_each(&words.collect::<Vec<_>>(), input)
}

#[test]
fn bytes_may_be_parted_by_spaces_or_colons() {
    let written = [
        "41 31 07",
        "41:31:07",
        "41  31   07",
        " 4131 07 ",
        "41:3107",
    ];
    for (arguments, input) in commands() {
        let wanted = with_key(arguments, "413107", &input);
        assert_eq!(wanted.status, 0, "{arguments}");
        for key in written {
            let got = with_key(arguments, key, &input);
            assert_eq!(got, wanted, "{arguments}, {key:?}");
        }
    }
    let wanted = lines("", b"413107\n");
    for key in written {
        assert_eq!(lines("", format!("{key}\r\n").as_bytes()), wanted);
    }
}

#[test]
fn what_is_no_key_is_told_with_its_column() {
    let inside =
        |separator| format!("a byte has two digits, and {separator:?} stands between them");
    let missing = "a colon stands between two bytes, and one is missing";
    let both = "bytes are parted by spaces or by colons, not by both";
    let half = "a byte has two digits, and the last has one";
    for (key, column, text) in [
        ("4 1", 2, &*inside(' ')),
        ("413 107", 4, &inside(' ')),
        ("41:3:107", 5, &inside(':')),
        (":41", 1, missing),
        ("41:", 3, missing),
        ("41::31", 4, missing),
        (":", 1, missing),
        ("41:31 07", 6, both),
        ("41 31:07", 3, both),
        ("41: 31", 4, both),
        (" 41 3", 6, half),
        ("413", 4, half),
        ("41\t31", 3, "'\\t' is no hexadecimal digit"),
        ("é1 4g", 1, "'é' is no hexadecimal digit"),
        ("41:é1:4g", 4, "'é' is no hexadecimal digit"),
        ("41 31  4g", 9, "'g' is no hexadecimal digit"),
    ] {
        told(key, &format!("column {column}: {text}"));
    }
}

/// By every command, and of a line.
#[track_caller]
fn told(key: &str, fault: &str) {
    for (arguments, input) in commands() {
        let name = arguments.split(' ').next().expect("a command");
        let told = with_key(arguments, key, &input);
        let line = format!("{key:?} is no key: {fault}; 'joistdenim {name} --help' tells more");
        let errors = format!("joistdenim: {line}\n");
        assert_eq!((told.status, told.errors), (2, errors), "{arguments}");
    }
    let of_line = lines("", format!("{key}\n").as_bytes());
    let line = format!("standard input, line 1, {fault}");
    assert_eq!(of_line.errors, format!("joistdenim: {line}\n"));
    let output = String::from_utf8(of_line.output).expect("text");
    assert_eq!((of_line.status, output), (2, format!("unread   {line}\n")));
}

#[test]
fn as_text_a_separator_is_a_character() {
    let shown = ran_each(&["show", "--text", "-", " A1"], table("20 -\n42\n")).text();
    assert!(shown.starts_with("key      204131 \" A1\"\n"));
    let shown = ran_each(&["show", "--text", "-", "A1: x "], table(SHORT_T)).text();
    assert!(shown.starts_with("key      41313a207820 \"A1: x \"\n"));
}

#[test]
fn columns_have_digits_alone() {
    let line = "joistdenim: standard input, line 1, column 3: ':' is no hexadecimal digit";
    ran("table", "41:30 43\n4135 -\n42\n").failed(2, line);
    ran("bucket translate 41 43 -", "41:30 7\n").failed(2, line);
    assert_eq!(ran("table", "41 30 43\n4135 -\n42\n").status, 2);
    assert_eq!(ran("bucket translate 41 43 -", "41 30 7\n").status, 2);
}
