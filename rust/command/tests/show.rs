//! `show` of keys that are arguments: blocks and rows, marks and colour, refusals, and what can't
//! be read.
mod support;

use joistdenim::MAX_LEN;
use support::shown::{column, lines, of_t, BLOCK, HEADER, OUTSIDE, UNCHANGED};
use support::{ran, ran_each, ran_in, table, Ran, SHORT_T};

#[test]
fn a_key_is_shown() {
    assert_eq!(of_t("show T 413107").text(), BLOCK);
    assert_eq!(of_t("show T 4135").text(), UNCHANGED);
    assert_eq!(
        of_t("show T 413107 4135").text(),
        format!("{BLOCK}\n{UNCHANGED}")
    );
}

#[test]
fn an_empty_edge_and_empty_keys_are_shown() {
    let stripped = table("- -\n4130 .\n4135 -\nmax\n");
    let taken_off = "key      4130
         ^^ replaced
slot     1, from 4130 up to 4135
shared   41
edge     . (empty: what is replaced is taken off)
renamed  30
";
    assert_eq!(ran("show - 4130", &stripped).text(), taken_off);
    let empty = "key      - (empty)
slot     0, from - (empty) up to 4130
shared   - (empty)
edge     - (none: the key stays as it is)
renamed  - (empty)
";
    assert_eq!(ran_each(&["show", "-", ""], &stripped).text(), empty);
    let last = ran("show - ff", &stripped).text();
    assert!(last.contains("slot     2, from 4135 up to max\nshared   - (empty)\n"));
    let whole = table("41 .\n42\n");
    assert!(ran("show - 41", whole)
        .text()
        .ends_with("renamed  - (empty)\n"));
}

#[test]
fn what_changed_has_colour_on_a_terminal() {
    let coloured = "key      \x1b[31m41\x1b[0m3107
         ^^ replaced
slot     0, from 4130 up to 4135
shared   41
edge     43
renamed  \x1b[1;32m43\x1b[0m3107
         ^^ in its place
";
    let shown = |terminal, colour| ran_in("show - 413107", table(SHORT_T), terminal, colour);
    assert_eq!(shown(true, true).text(), coloured);
    assert_eq!(shown(true, false).text(), BLOCK);
}

#[test]
fn keys_may_be_written_as_text() {
    let block = "key      413178 \"A1x\"
         ^^ replaced
slot     0, from 4130 \"A0\" up to 4135 \"A5\"
shared   41 \"A\"
edge     43 \"C\"
renamed  433178 \"C1x\"
         ^^ in its place
";
    assert_eq!(of_t("show --text T A1x").text(), block);
    let escaped = ran_each(&["show", "--text", "-", "A1\t\""], table(SHORT_T)).text();
    assert!(escaped.starts_with("key      41310922 \"A1\\t\\\"\"\n"));
}

#[test]
fn a_refused_key_is_told() {
    of_t("show T 42").failed(1, &format!("refused 5: {OUTSIDE}"));
    let beside = of_t("show T 42 413107");
    assert_eq!(beside.status, 1);
    assert_eq!(beside.errors, format!("refused 5: {OUTSIDE}\n"));
    assert_eq!(beside.output, BLOCK.as_bytes());
    let edge = "43".repeat(MAX_LEN - 1);
    let long = table(&format!("4130 {edge}\n4135\n"));
    let line = format!("refused 8: 413000 with {edge} in place of 41 would pass 64 bytes");
    ran("show - 413000", long).failed(1, &line);
}

#[test]
fn rows_have_an_answer_for_each_key() {
    let long = "41".repeat(MAX_LEN + 1);
    let shown = of_t(&format!("show --tsv T 413107 42 4135 {long}"));
    let rows = "413107\t0\t4130\t4135\t41\t43\t433107\t0\n42\t\t\t\t\t\t\t5\n\
                4135\t1\t4135\t42\t41\t-\t4135\t0\n";
    let output = format!("{HEADER}{rows}{long}\t\t\t\t\t\t\t2\n");
    assert_eq!(String::from_utf8(shown.output).unwrap(), output);
    let too_long = format!("{long} has 65 bytes, and a key has at most 64");
    let errors = format!("refused 5: {OUTSIDE}\nrefused 2: {too_long}\n");
    assert_eq!((shown.status, shown.errors), (1, errors));
    let long = table(&format!("4130 {}\n4135\n", "43".repeat(MAX_LEN - 1)));
    let shown = ran("show --tsv - 413000", long);
    let row = String::from_utf8(shown.output).unwrap();
    assert!(row.ends_with("\t\t8\n") && row.contains("\n413000\t0\t4130\t4135\t41\t43"));
}

#[test]
fn what_cant_be_read_is_told_and_the_others_are_shown() {
    let line = "joistdenim: \"4g\" is no key: column 2: 'g' is no hexadecimal digit; \
                'joistdenim show --help' tells more\n";
    let beside = of_t("show T 4g 413107");
    assert_eq!(beside.output, BLOCK.as_bytes());
    assert_eq!((beside.status, &*beside.errors), (2, line));
    let rows = of_t("show --tsv T 413107 4g 42");
    assert_eq!(column(&rows, 0), ["key", "413107", "", "42"]);
    assert_eq!(column(&rows, 7), ["refusal", "0", "?", "5"]);
    let output = String::from_utf8(rows.output).unwrap();
    assert!(output.contains("\n\t\t\t\t\t\t\t?\n"));
    let errors = format!("{line}refused 5: {OUTSIDE}\n");
    assert_eq!((rows.status, rows.errors), (2, errors));
}

#[test]
fn single_bytes_that_are_all_refused_are_told_to_be_keys() {
    let told = |arguments: &str, line: &str| {
        let last = of_t(arguments).errors.lines().last().map(str::to_string);
        assert_eq!(last.as_deref(), Some(line), "{arguments}");
    };
    let line = "joistdenim: these are 3 keys of one byte each; \
                for one key write 413107 or \"41 31 07\"";
    told("show T 41 31 07", line);
    told("show --tsv T 41 31 07", line);
    assert_eq!(of_t("show T 41 31 07").status, 1);
    assert_eq!(of_t("show T 41 31 07").errors.lines().count(), 4);
    let many = "show T".to_string() + &" ff".repeat(64);
    assert!(of_t(&many).errors.contains("these are 64 keys"));
    let is_silent = |ran: Ran| !ran.errors.contains("these are");
    for arguments in [
        "show T 42",
        "show T 41 3107",
        "show T 41 31 413107",
        "show T 41 31 7",
        "show --text T B C",
        &format!("{many} ff"),
    ] {
        assert!(is_silent(of_t(arguments)), "{arguments}");
    }
    assert!(is_silent(ran("show - 41 50", table("41 -\n43\n"))));
    assert!(is_silent(lines("", b"42\n43\n")));
}
