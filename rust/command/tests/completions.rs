//! What shells read to complete words: the files are what is printed, and bash completes by its own.
mod support;

use std::process::Command;
use support::{document, ran, same, shell, Folder};

#[test]
fn the_files_are_what_is_printed() {
    for (shell, file) in [
        ("bash", "joistdenim.bash"),
        ("zsh", "_joistdenim"),
        ("fish", "joistdenim.fish"),
    ] {
        let printed = ran(&format!("--completions {shell}"), "").text();
        same(&document(&format!("docs/completions/{file}")), &printed);
        assert!(!printed.contains("S@"), "a mark that nothing replaced");
    }
}

#[test]
fn other_shells_are_wrong_usage() {
    let line = "joistdenim: --completions takes bash, zsh or fish; 'joistdenim --help' tells more";
    for arguments in ["", " sh", " bash zsh", " --help"] {
        ran(&format!("--completions{arguments}"), "").failed(2, line);
    }
}

/// The syntax, where the shell is there to read it.
#[test]
fn each_shell_reads_its_own() {
    for (name, option) in [("bash", "-n"), ("zsh", "-n"), ("fish", "--no-execute")] {
        let folder = Folder::new();
        let text = ran(&format!("--completions {name}"), "").text();
        let file = folder.with("text", text);
        match Command::new(name).args([option, &file]).output() {
            Ok(read) => {
                let said = String::from_utf8_lossy(&read.stderr).into_owned();
                assert_eq!(
                    (read.status.code(), said),
                    (Some(0), String::new()),
                    "{name}"
                );
            }
            Err(error) => eprintln!("not tried, {name}: {error}"),
        }
    }
}

/// The folder that files are completed in.
fn files() -> Folder {
    let folder = Folder::new();
    for name in ["t.table", "t.txt", "two words", "u.table"] {
        folder.with(name, "");
    }
    folder
}

/// What bash offers for the last of these words.
fn offered(words: &[&str], folder: &Folder) -> Vec<String> {
    let words: Vec<String> = words.iter().map(|word| format!("'{word}'")).collect();
    let line = format!(
        "set -u; source <(joistdenim --completions bash); COMP_WORDS=(joistdenim {}); \
         COMP_CWORD={}; $(complete -p joistdenim | sed 's/.*-F \\([^ ]*\\) .*/\\1/'); \
         [ ${{#COMPREPLY[@]}} -eq 0 ] || printf '%s\\n' \"${{COMPREPLY[@]}}\"",
        words.join(" "),
        words.len()
    );
    let ran = shell(&line, folder.path());
    assert_eq!(String::from_utf8_lossy(&ran.stderr), "");
    let text = String::from_utf8(ran.stdout).expect("text");
    let mut offered: Vec<String> = text.lines().map(str::to_string).collect();
    offered.sort();
    offered
}

#[test]
fn bash_completes_commands_options_and_words() {
    let folder = files();
    let all = [
        "--completions",
        "--help",
        "--man",
        "--version",
        "bucket",
        "check",
        "cut",
        "insert",
        "join",
        "list",
        "show",
        "table",
    ];
    assert_eq!(offered(&[""], &folder), all);
    let output = ["--help", "--output", "-o"];
    let text = ["--help", "--output", "--text", "-o"];
    let commands = &all[4..];
    for (words, wanted) in [
        (&["l"][..], &["list"][..]),
        (&["--v"], &["--version"]),
        (&["x"], &[]),
        (&["help", ""], commands),
        (&["--help", "c"], &["check", "cut"]),
        (&["--completions", ""], &["bash", "fish", "zsh"]),
        (&["--version", ""], &[]),
        (&["table", "t.txt", "-"], &output),
        (&["check", "--o"], &["--output"]),
        (&["cut", "-"], &text),
        (&["insert", "-"], &text),
        (&["join", "-"], &output),
        (&["show", "-"], &["--help", "--text", "--tsv"]),
        (&["bucket", "translate", "--r"], &["--report"]),
        (&["cut", ""], &["left", "right"]),
        (&["cut", "--text", "l"], &["left"]),
        (&["cut", "-o", "left", ""], &["left", "right"]),
        (&["cut", "--output", "=", "left", ""], &["left", "right"]),
        (&["bucket", ""], &["translate"]),
    ] {
        assert_eq!(offered(words, &folder), wanted, "{words:?}");
    }
}

#[test]
fn bash_completes_files_where_a_file_is_meant() {
    let folder = files();
    let all = folder.names();
    for words in [
        &["list", ""][..],
        &["table", ""],
        &["show", "--tsv", ""],
        &["cut", "left", ""],
        &["insert", ""],
        &["join", "t.table", ""],
        &["join", "-o", "u.table", "t.table", ""],
        &["check", "t.table", "u.table", ""],
        &["bucket", "translate", "41", "43", ""],
        &["list", "t.table", "-o", ""],
        &["list", "t.table", "--output", ""],
        &["list", "t.table", "--output", "="],
        &["list", "t.table", "--output", "=", ""],
    ] {
        assert_eq!(offered(words, &folder), all, "{words:?}");
        let head = [&words[..words.len() - 1], &["tw"]].concat();
        if words.last() == Some(&"") {
            assert_eq!(offered(&head, &folder), ["two words"], "{head:?}");
        }
    }
    for words in [
        &["list", "t.table", ""][..],
        &["show", "t.table", ""],
        &["show", "t.table", "41", ""],
        &["show", "t.table", "-o", ""],
        &["cut", "left", "t.table", ""],
        &["insert", "t.table", ""],
        &["bucket", "translate", ""],
        &["bucket", "translate", "41", ""],
        &["join", "t.table", "u.table", ""],
    ] {
        assert!(offered(words, &folder).is_empty(), "{words:?}");
    }
}
