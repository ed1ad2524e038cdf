//! Streams, by the program itself: a standard output that is full or can't be written to, closed
//! pipes, and terminals.
mod support;

use std::fs;
use support::{failed, folder, quiet, same, shell, Folder};

#[test]
fn a_full_standard_output_is_told() {
    let folder = folder();
    let line = "joistdenim: standard output: No space left on device";
    for arguments in [
        "list t.table",
        "cut left t.table 4131",
        "show t.table 4131",
        "show --tsv t.table 4131",
        "check t.table",
        "--help",
        "--version",
        "--man",
    ] {
        let written = shell(&format!("joistdenim {arguments} >/dev/full"), folder.path());
        failed(&written, 2, line);
    }
}

#[test]
fn standard_output_that_cant_be_written_is_told() {
    let written = shell("joistdenim list t.table 1</dev/null", folder().path());
    failed(
        &written,
        2,
        "joistdenim: standard output: Bad file descriptor",
    );
}

/// Both streams are one file here, as on a terminal.
#[test]
fn check_answers_in_the_order_of_its_arguments() {
    let folder = folder();
    folder.with("bad.table", "4130 43\n");
    let line = "joistdenim check t.table none large.table bad.table t.table 2>&1";
    let checked = shell(line, folder.path());
    let lines = "t.table: well formed, 3 pivots, 2 slots, 1 with an edge
joistdenim: none: No such file or directory
large.table: well formed, 64 pivots, 63 slots, 0 with an edge
refused 1: bad.table is text; 'joistdenim table' makes a table of a list
t.table: well formed, 3 pivots, 2 slots, 1 with an edge
";
    same(&String::from_utf8(checked.stdout).expect("text"), lines);
    assert_eq!(checked.status.code(), Some(2));
}

#[test]
fn a_closed_pipe_ends_it_quietly() {
    let folder = folder();
    for arguments in [
        "list t.table",
        "cut left t.table 4131",
        "show t.table 4131",
        "--man",
    ] {
        let line = format!("(sleep 0.2; joistdenim {arguments}; echo $? >status) | true");
        quiet(&shell(&line, folder.path()));
        assert_eq!(fs::read(folder.at("status")).expect("a status"), b"0\n");
    }
    let endless = "(yes 4131 | joistdenim show t.table -; echo $? >status) | head -n 1";
    let first = shell(endless, folder.path());
    quiet(&first);
    assert_eq!(first.stdout, b"key      4131\n");
    assert_eq!(fs::read(folder.at("status")).expect("a status"), b"0\n");
}

/// A line as a terminal shows it; its lines end with CR LF there.
fn on_terminal(line: &str, folder: &Folder) -> String {
    let run = format!("script -qec '{line}' /dev/null </dev/null");
    let shown = shell(&run, folder.path()).stdout;
    String::from_utf8(shown)
        .expect("text")
        .replace("\r\n", "\n")
}

#[test]
fn a_terminal_has_colour_and_no_bytes() {
    let folder = folder();
    let show = "joistdenim show t.table 413107";
    let coloured = |shown: &str| {
        shown.contains("\x1b[31m41\x1b[0m3107\n         ^^ replaced\n")
            && shown.contains("\x1b[1;32m43\x1b[0m3107\n         ^^ in its place\n")
    };
    let marked = |shown: &str| shown.contains("413107\n         ^^ replaced\n");
    assert!(coloured(&on_terminal(
        &format!("TERM=xterm {show}"),
        &folder
    )));
    assert!(coloured(&on_terminal(
        &format!("NO_COLOR= TERM=xterm {show}"),
        &folder
    )));
    assert!(marked(&on_terminal(
        &format!("NO_COLOR=1 TERM=xterm {show}"),
        &folder
    )));
    assert!(marked(&on_terminal(&format!("TERM=dumb {show}"), &folder)));
    assert!(marked(&on_terminal(
        &format!("unset TERM; {show}"),
        &folder
    )));
    let piped = shell(&format!("TERM=xterm {show}"), folder.path());
    assert!(marked(&String::from_utf8(piped.stdout).expect("text")));
    let bytes = on_terminal("joistdenim cut left t.table 4131; echo $?", &folder);
    let line = "joistdenim: the result is bytes and not for a terminal: give -o FILE; \
                'joistdenim cut --help' tells more\n2\n";
    assert_eq!(bytes, line);
}

#[test]
fn a_terminal_shows_a_refused_line_once() {
    let folder = folder();
    let outside = "5: 42 is outside the table, which goes from 4130 up to, but without, 42\n";
    let unread = "standard input, line 2, column 2: 'g' is no hexadecimal digit\n";
    let blocks = format!("key      42\nrefused  {outside}\nunread   {unread}");
    let told = format!("refused {outside}joistdenim: {unread}");
    let keys = "printf \"42\\n4g\\n\" | joistdenim show";
    let once = on_terminal(&format!("{keys} t.table -; echo $?"), &folder);
    assert_eq!(once, format!("{blocks}2\n"));
    let apart = on_terminal(&format!("{keys} t.table - 2>errors"), &folder);
    assert_eq!(apart, blocks);
    assert_eq!(
        fs::read(folder.at("errors")).expect("a log"),
        told.as_bytes()
    );
    assert_eq!(
        on_terminal(&format!("{keys} t.table - >answers"), &folder),
        told
    );
    assert_eq!(
        fs::read(folder.at("answers")).expect("answers"),
        blocks.as_bytes()
    );
    let rows = on_terminal(&format!("{keys} --tsv t.table -"), &folder);
    assert!(rows.contains(&format!("\nrefused {outside}42\t")));
    assert!(rows.ends_with(&format!("joistdenim: {unread}\t\t\t\t\t\t\t?\n")));
    let argument = on_terminal("joistdenim show t.table 42", &folder);
    assert_eq!(argument, format!("refused {outside}"));
}
