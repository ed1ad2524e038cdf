//! An output that is one of the files that are read, by the program itself: it is refused and nothing
//! is changed, unless to change it is what the command is for.
mod support;

use joistdenim::ENTRY_SIZE;
use std::fs;
use std::os::unix::fs::symlink;
use support::{errors, failed, folder, quiet, shell, table, Folder, LIST_OF_T, SHORT_T};

/// T as table and as text, its key 4131 as keys, and a bucket in both forms.
fn inputs() -> Folder {
    let folder = folder();
    folder.with("t.txt", format!("# T\n{SHORT_T}"));
    folder.with("b.txt", "4130 7\n");
    let mut entry = [0; ENTRY_SIZE];
    entry[..4].copy_from_slice(b"\x00\x02A0");
    entry[ENTRY_SIZE - 1] = 7;
    folder.with("b.bytes", entry);
    folder
}

/// Commands that make something else of what they read, each with the file, and what it holds.
const OTHERS: [(&str, &str, &str); 6] = [
    ("list IN", "t.table", "table"),
    ("table IN", "t.txt", "text"),
    ("check IN", "t.table", "table"),
    ("check large.table IN", "t.table", "table"),
    ("bucket translate --report 41 43 IN", "b.txt", "bucket"),
    (
        "bucket translate --report --bytes 41 43 IN",
        "b.bytes",
        "bucket",
    ),
];

/// Commands that change what they read, each with the file.
const CHANGES: [(&str, &str); 8] = [
    ("cut left IN 4131", "t.table"),
    ("cut right IN 4131", "t.table"),
    ("insert IN 4131", "t.table"),
    ("join IN after.table", "t.table"),
    ("join before.table IN", "t.table"),
    ("bucket translate 41 43 IN", "b.txt"),
    ("bucket translate --text A C IN", "b.txt"),
    ("bucket translate --bytes 41 43 IN", "b.bytes"),
];

/// The inputs, and the tables that T can be joined with.
fn changed_inputs() -> Folder {
    let folder = inputs();
    folder.with("before.table", table("40 -\n4130\n"));
    folder.with("after.table", table("42 -\nmax\n"));
    folder
}

/// The name of a file and of two links to it, and a path.
fn names_of(file: &str, folder: &Folder) -> [String; 4] {
    symlink(file, folder.at("soft")).expect("a link");
    fs::hard_link(folder.at(file), folder.at("hard")).expect("a second name");
    [file, "soft", "hard", &format!("./{file}")].map(str::to_string)
}

/// Runs a line that must fail with this one, and change nothing of the file. What appends to its own
/// input would never end, so no file may grow beyond a million bytes.
#[track_caller]
fn keeps(file: &str, line: &str, said: &str, folder: &Folder) {
    let state = || {
        let bytes = fs::read(folder.at(file)).expect("it is there");
        (bytes, folder.names())
    };
    let before = state();
    let ran = shell(&format!("ulimit -f 1000; {line}"), folder.path());
    failed(&ran, 2, &format!("joistdenim: {said}"));
    assert_eq!(state(), before, "{line}");
}

#[test]
fn what_is_read_isnt_replaced_by_something_else() {
    for (command, file, holds) in OTHERS {
        let folder = inputs();
        let names = names_of(file, &folder);
        for input in &names {
            for output in &names {
                let said = format!(
                    "-o {output} would replace {input}, the {holds} that is read: give -o another file"
                );
                let line = format!("joistdenim {} -o {output}", command.replace("IN", input));
                keeps(file, &line, &said, &folder);
            }
        }
    }
}

#[test]
fn standard_input_isnt_replaced_by_something_else() {
    for (command, file, holds) in OTHERS {
        let folder = inputs();
        for output in names_of(file, &folder) {
            let said = format!(
                "-o {output} would replace standard input, the {holds} that is read: give -o another file"
            );
            let line = format!(
                "joistdenim {} -o {output} <{file}",
                command.replace("IN", "-")
            );
            keeps(file, &line, &said, &folder);
        }
    }
    let folder = inputs();
    let said = "-o t.txt would replace standard input, the text that is read: give -o another file";
    keeps("t.txt", "joistdenim table -o t.txt <t.txt", said, &folder);
    let said = "-o t.table would replace /dev/stdin, the table that is read: give -o another file";
    let line = "joistdenim list /dev/stdin -o t.table <t.table";
    keeps("t.table", line, said, &folder);
}

/// Where standard input isn't read, or standard output isn't written, they are no matter.
#[test]
fn streams_that_arent_used_are_no_matter() {
    let folder = inputs();
    quiet(&shell(
        "joistdenim list t.table -o b.txt <b.txt",
        folder.path(),
    ));
    let listed = fs::read(folder.at("b.txt")).expect("the list");
    assert_eq!(listed, LIST_OF_T.as_bytes());
    let into = "joistdenim list t.table -o t.list >>t.table";
    quiet(&shell(into, folder.path()));
    quiet(&shell("joistdenim list t.table >>b.bytes", folder.path()));
    assert_eq!(fs::read(folder.at("t.table")).expect("T"), table(SHORT_T));
}

#[test]
fn a_table_or_bucket_may_be_changed_in_its_place() {
    for (command, file) in CHANGES {
        let folder = changed_inputs();
        let named = format!("joistdenim {}", command.replace("IN", file));
        let result = shell(&format!("{named} -o result"), folder.path());
        assert_eq!(result.status.code(), Some(0), "{}", errors(&result));
        let wanted = fs::read(folder.at("result")).expect("the result");
        let piped = format!("joistdenim {}", command.replace("IN", "-"));
        for line in [
            format!("{named} -o {file}"),
            format!("{named} -o soft"),
            format!("{piped} -o {file} <{file}"),
        ] {
            let folder = changed_inputs();
            symlink(file, folder.at("soft")).expect("a link");
            let changed = shell(&line, folder.path());
            assert_eq!(
                (changed.status, &changed.stderr),
                (result.status, &result.stderr)
            );
            assert_eq!(fs::read(folder.at(file)).expect("it"), wanted, "{line}");
        }
    }
}

#[test]
fn standard_output_is_no_file_that_is_read() {
    let others = OTHERS.map(|(command, file, holds)| (command, file, holds, ""));
    let holds = |file| if file == "t.table" { "table" } else { "bucket" };
    let changes = CHANGES.map(|(command, file)| (command, file, holds(file), ", or give -o"));
    let shows = ["show IN 4131", "show --tsv IN 4131"].map(|show| (show, "t.table", "table", ""));
    for (command, file, holds, or) in others.into_iter().chain(changes).chain(shows) {
        let folder = changed_inputs();
        for input in names_of(file, &folder) {
            let command = format!("joistdenim {}", command.replace("IN", &input));
            let said = format!(
                "standard output is the same file as {input}, the {holds} that is read: write to another file{or}"
            );
            for to_file in [">>", "1<>"] {
                let line = format!("{command} {to_file}{file}");
                keeps(file, &line, &said, &folder);
            }
        }
    }
}

#[test]
fn standard_output_is_no_standard_input() {
    let folder = inputs();
    folder.with("keys", "4131\n");
    for (line, file, holds) in [
        ("show t.table - <keys >>keys", "keys", "list of keys"),
        ("show - 4131 <t.table >>t.table", "t.table", "table"),
        ("list - <t.table >>t.table", "t.table", "table"),
        ("list - -o - <t.table >>t.table", "t.table", "table"),
        ("table <t.txt >>t.txt", "t.txt", "text"),
    ] {
        let said = format!(
            "standard output is the same file as standard input, the {holds} that is read: write to another file"
        );
        keeps(file, &format!("joistdenim {line}"), &said, &folder);
    }
    let line = "joistdenim show t.table 4131 - <keys >>t.table";
    let said = "standard output is the same file as t.table, the table that is read: write to another file";
    keeps("t.table", line, said, &folder);
}
