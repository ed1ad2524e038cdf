//! `show` of keys on standard input, line by line.
mod support;

use std::io::{BufRead, BufReader, Write};
use std::process::Stdio;
use std::sync::mpsc::{channel, RecvTimeoutError};
use std::thread;
use std::time::Duration;
use support::shown::{column, lines, BLOCK, HEADER, OUTSIDE, UNCHANGED};
use support::{program, table, Folder, SHORT_T};

#[test]
fn a_refused_key_is_shown_as_it_is_written() {
    let shown = lines("--text", b"B\n\n");
    let goes = "outside the table, which goes from 4130 up to, but without, 42";
    let output = format!(
        "key      42 \"B\"\nrefused  5: 42 \"B\" is {goes}\n\n\
         key      - (empty)\nrefused  5: - (empty) is {goes}\n"
    );
    assert_eq!(String::from_utf8(shown.output).unwrap(), output);
}

#[test]
fn each_line_has_an_answer_in_its_place() {
    let shown = lines("", b"413107\n42\n4g\n 4135 \r\n");
    let unread = "standard input, line 3, column 2: 'g' is no hexadecimal digit";
    let refused = format!("key      42\nrefused  5: {OUTSIDE}\n");
    let output = format!("{BLOCK}\n{refused}\nunread   {unread}\n\n{UNCHANGED}");
    assert_eq!(String::from_utf8(shown.output).unwrap(), output);
    let errors = format!("refused 5: {OUTSIDE}\njoistdenim: {unread}\n");
    assert_eq!((shown.status, shown.errors), (2, errors));
    let rows = lines("--tsv", b"42\n  4g\n413107");
    let output = format!(
        "{HEADER}42\t\t\t\t\t\t\t5\n\t\t\t\t\t\t\t?\n413107\t0\t4130\t4135\t41\t43\t433107\t0\n"
    );
    assert_eq!(String::from_utf8(rows.output).unwrap(), output);
    assert!(rows
        .errors
        .ends_with("standard input, line 2, column 4: 'g' is no hexadecimal digit\n"));
    assert_eq!(rows.status, 2);
    assert_eq!(lines("", b"42\n").status, 1);
    assert_eq!(lines("", b"4g\n42\n").status, 2);
    assert_eq!(lines("", b"413107\n").text(), BLOCK);
    assert_eq!(lines("", b"").text(), "");
}

#[test]
fn blank_lines_and_comments_have_no_answer() {
    let input = "\u{feff}# seen\n\n413107 # one\n \t\r\n-\n#\n4135#two\r\n 4g # 4135\n";
    let rows = lines("--tsv", input.as_bytes());
    assert_eq!(column(&rows, 0), ["key", "413107", "-", "4135", ""]);
    assert_eq!(column(&rows, 7), ["refusal", "0", "5", "0", "?"]);
    let fault = "standard input, line 8, column 3: 'g' is no hexadecimal digit\n";
    assert!(rows.errors.ends_with(fault) && rows.errors.lines().count() == 2);
    let blocks = lines("", b"\n413107\n\n# two\n4135\n\n").text();
    assert_eq!(blocks, format!("{BLOCK}\n{UNCHANGED}"));
    assert_eq!(lines("", b"\n# none").text(), "");
    let mark_later = lines("--tsv", "4135\n\u{feff}4135".as_bytes());
    assert_eq!(column(&mark_later, 7), ["refusal", "0", "?"]);
}

#[test]
fn lines_as_text_are_taken_as_they_stand() {
    let rows = lines("--text --tsv", b"A1 \nA1\xFF\n\n#A\nA1#\n-\n");
    let keys = ["key", "413120", "4131ff", "-", "2341", "413123", "2d"];
    assert_eq!(column(&rows, 0), keys);
    let mark = lines("--text --tsv", "\u{feff}A".as_bytes());
    assert_eq!(column(&mark, 0), ["key", "efbbbf41"]);
    let unclear = lines("--text --tsv", b"A1\r\n\rA\n");
    let line = "line 1, column 3: whether this CR ends the line or the key can't be told\n";
    assert!(unclear
        .errors
        .starts_with(&format!("joistdenim: standard input, {line}")));
    assert_eq!(unclear.status, 2);
}

#[test]
fn a_line_too_long_doesnt_end_the_others() {
    let most = 1 << 16;
    let long = "4".repeat(most);
    let input = format!("{long}4\n413107\n{long}\n4135 #{long}\n");
    let rows = lines("--tsv", input.as_bytes());
    assert_eq!(column(&rows, 7), ["refusal", "?", "0", "2", "0"]);
    let line = "joistdenim: standard input, line 1, column 65537: a line has at most 65536 bytes\n";
    assert!(rows.errors.starts_with(line));
    let text = lines("--text --tsv", input.as_bytes());
    assert_eq!(column(&text, 7), ["refusal", "?", "5", "2", "?"]);
}

#[test]
fn a_line_is_answered_before_the_next_is_read() {
    let folder = Folder::new();
    let t = folder.with("t.table", table(SHORT_T));
    let mut show = program();
    show.args(["show", "--tsv", &t, "-"]);
    show.stdin(Stdio::piped())
        .stdout(Stdio::piped())
        .stderr(Stdio::null());
    let mut show = show.spawn().expect("the command runs");
    let mut keys = show.stdin.take().expect("standard input");
    let rows = BufReader::new(show.stdout.take().expect("standard output"));
    let (sender, receiver) = channel();
    thread::spawn(move || rows.lines().for_each(|row| drop(sender.send(row))));
    let next = || receiver.recv_timeout(Duration::from_secs(20));
    let next = || next().map(|row| row.expect("a row"));
    assert_eq!(next(), Ok(HEADER.trim_end().into()));
    for (key, refusal) in [("413107", 0), ("42", 5), ("4135", 0), ("-", 5)] {
        writeln!(keys, "{key}").expect("a key is taken");
        let row = next().expect("an answer comes");
        assert!(row.ends_with(&format!("\t{refusal}")), "{key}");
    }
    drop(keys);
    assert_eq!(next(), Err(RecvTimeoutError::Disconnected));
    assert_eq!(show.wait().expect("it ends").code(), Some(1));
}
