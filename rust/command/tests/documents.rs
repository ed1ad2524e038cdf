//! The README, docs/COMMAND.md, the manual page and the examples of `--help`: their lines run, and
//! print what stands there.
mod support;

use std::fs;
use std::os::unix::fs::symlink;
use support::{document, errors, ran, root, same, shell, Folder};

const COMMANDS: [&str; 8] = [
    "list", "table", "show", "cut", "insert", "join", "check", "bucket",
];

/// The texts between lines of three back quotes.
fn blocks(document: &str) -> Vec<String> {
    let mut blocks = vec![];
    let mut block: Option<String> = None;
    for line in document.lines() {
        match (line.starts_with("```"), block.take()) {
            (true, None) => block = Some(String::new()),
            (true, Some(whole)) => blocks.push(whole),
            (false, Some(part)) => block = Some(part + line + "\n"),
            (false, None) => {}
        }
    }
    blocks
}

/// A command, which goes on to the end of a text that is given to it, and what it prints.
struct Step {
    command: String,
    printed: String,
}

/// What stands after `$ ` is a command, and the lines below it are what it prints.
fn steps(block: &str) -> Vec<Step> {
    let mut steps: Vec<Step> = vec![];
    let mut given_up_to: Option<String> = None;
    for line in block.lines() {
        if let Some(command) = line.strip_prefix("$ ") {
            let end = command.split("<<").nth(1);
            given_up_to = end.map(str::to_string);
            let (command, printed) = (format!("{command}\n"), String::new());
            steps.push(Step { command, printed });
            continue;
        }
        let step = steps.last_mut().expect("a block begins with a command");
        if given_up_to.is_some() {
            step.command += &format!("{line}\n");
            given_up_to.take_if(|end| end == line);
        } else {
            step.printed += &format!("{line}\n");
        }
    }
    steps
}

/// Runs the commands in turn, in one folder that has the examples.
fn run(block: &str) {
    let folder = Folder::new();
    symlink(root().join("examples"), folder.at("examples")).expect("a link");
    let steps = steps(block);
    assert!(!steps.is_empty());
    for Step { command, printed } in steps {
        let ran = shell(&format!("exec 2>&1\n{command}"), folder.path());
        let got = String::from_utf8(ran.stdout).expect("text");
        assert_eq!(got, printed, "{command}");
    }
}

fn has_commands(block: &&String) -> bool {
    block.starts_with("$ ")
}

#[test]
fn the_readme_runs_as_it_is_printed() {
    let readme = document("README.md");
    let section = readme
        .split("\n## ")
        .find(|text| text.starts_with("The command\n"));
    let blocks = blocks(section.expect("the section"));
    let [block] = &blocks[..] else {
        panic!("one block shows the command");
    };
    assert!(block.contains("joistdenim table t.txt -o t.table\n"));
    assert_eq!(steps(block).len(), 5);
    run(block);
}

#[test]
fn the_text_of_the_readme_is_the_example() {
    let text = document("examples/t.txt");
    assert_eq!(text.lines().count(), 6);
    assert!(document("README.md").contains(&format!("$ cat >t.txt <<end\n{text}end\n")));
}

#[test]
fn examples_of_help_run() {
    for name in COMMANDS {
        let page = ran(&format!("{name} --help"), "").text();
        let (_, example) = page.split_once("\nExample:\n").expect("an example");
        let lines = example
            .lines()
            .map(|line| line.strip_prefix("  ").unwrap_or(line));
        run(&lines.map(|line| format!("{line}\n")).collect::<String>());
    }
}

#[test]
fn lines_of_the_document_run() {
    let blocks = blocks(&document("docs/COMMAND.md"));
    let shown: Vec<&String> = blocks.iter().filter(has_commands).collect();
    assert_eq!(shown.len(), 6);
    shown.into_iter().for_each(|block| run(block));
}

/// Each table that docs/FORMAT.md makes, byte by byte and by the command, is one of the examples.
#[test]
fn lines_of_the_formats_make_the_examples() {
    let format = document("docs/FORMAT.md");
    let folder = Folder::new();
    let mut made = vec![];
    let zeros = "z() { head -c \"$1\" /dev/zero; }";
    assert!(format.contains(&format!("\n{zeros}\n")));
    for block in blocks(&format) {
        if block.ends_with(">table\n") || block.ends_with("-o table\n") {
            let ran = shell(&format!("{zeros}\n{block}"), folder.path());
            assert!(ran.status.success(), "{block}");
            made.push(fs::read(folder.at("table")).expect("a table"));
        }
    }
    let example = |name| fs::read(root().join("examples").join(name)).expect(name);
    let (t, stripped) = (example("t.table"), example("stripped.table"));
    assert_eq!(made, [t.clone(), t, stripped.clone(), stripped]);
}

#[test]
fn the_document_has_the_text_of_help() {
    let blocks = blocks(&document("docs/COMMAND.md"));
    let mut texts = blocks
        .iter()
        .filter(|block| block.starts_with("joistdenim"));
    let mut next = || texts.next().expect("the text of help");
    same(next(), &ran("--help", "").text());
    for name in COMMANDS {
        same(next(), &ran(&format!("{name} --help"), "").text());
    }
    assert_eq!(texts.next(), None);
}

#[test]
fn the_manual_page_is_what_is_printed() {
    let page = ran("--man", "").text();
    same(&document("docs/joistdenim.1"), &page);
    for name in COMMANDS {
        assert!(page.contains(&format!("\n.SS joistdenim {name} ")));
    }
    for section in [
        "NAME",
        "SYNOPSIS",
        "DESCRIPTION",
        "COMMANDS",
        "LIMITS",
        "EXIT STATUS",
        "ENVIRONMENT",
        "SEE ALSO",
    ] {
        assert!(page.contains(&format!("\n.SH {section}\n")), "{section}");
    }
    let head = page.lines().next().expect("a head");
    let version = env!("CARGO_PKG_VERSION");
    let [day, source] = head
        .strip_prefix(".TH JOISTDENIM 1 ")
        .map(|rest| rest.split_at(rest.len().min(12)))
        .map(Into::into)
        .expect("a title");
    assert!(is_day(day), "{day}");
    assert_eq!(source, format!(" \"joistdenim {version}\""));
}

/// Whether it is a day as "2026-11-17", in quotation marks.
fn is_day(text: &str) -> bool {
    let digits = text.replace(|c: char| c.is_ascii_digit(), "9");
    digits == "\"9999-99-99\""
}

/// The manual page as it is read: no character that a person would type is printed as another one.
#[test]
fn the_manual_page_is_read_as_it_was_written() {
    let page = root().join("docs/joistdenim.1");
    let line = format!("groff -man -Tutf8 -ww -P-cbou {}", page.display());
    let printed = shell(&line, Folder::new().path());
    if printed.status.code() == Some(127) {
        return eprintln!("not tried, as groff isn't here: how the manual page is read");
    }
    assert_eq!(errors(&printed), "");
    let text = String::from_utf8(printed.stdout).expect("text");
    for part in [
        "^^ replaced",
        "'joistdenim table'",
        "--text",
        "list -\n",
        "~/.config/fish",
    ] {
        assert!(text.contains(part), "{part}");
    }
    assert!(text.is_ascii());
}
