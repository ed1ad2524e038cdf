//! How the command is called: help, version, wrong usage, and keys that are too long.
mod support;

use joistdenim::{MAX_ENTRIES, MAX_LEN, MAX_PIVOTS, MIN_PIVOTS};
use std::fs;
use support::{ran, ran_words, Folder, LIST_OF_T, SHORT_T};

const COMMANDS: [&str; 8] = [
    "list", "table", "show", "cut", "insert", "join", "check", "bucket",
];

/// Wrong usage says what is wrong and which help tells more, and ends with 2.
#[track_caller]
fn wrong(arguments: &str, text: &str, help: &str) {
    let line = format!("joistdenim: {text}; 'joistdenim {help}' tells more");
    ran(arguments, "").failed(2, &line);
}

#[test]
fn help_names_every_command_and_has_its_example() {
    let all = ran("--help", "").text();
    for name in COMMANDS {
        assert!(all.contains(&format!("\n  {name} ")), "{name}");
        let page = ran(&format!("{name} --help"), "").text();
        assert!(page.starts_with(&format!("joistdenim {name} ")));
        assert!(page.contains("\nExample:\n  $ "));
        assert!(page.contains(&format!("$ joistdenim {name} ")));
        assert!(page.lines().all(|line| line == line.trim_end()));
        assert_eq!(ran(&format!("{name} -h"), "").text(), page);
        assert_eq!(ran(&format!("help {name}"), "").text(), page);
    }
    assert_eq!(ran("-h", "").text(), all);
    assert_eq!(ran("help", "").text(), all);
}

#[test]
fn help_has_the_limits() {
    let all = ran("--help", "").text().replace("\n  ", " ");
    let limits = format!(
        "A table has {MIN_PIVOTS} to {MAX_PIVOTS} pivots, a bucket at most {MAX_ENTRIES} entries, \
         and a key or an edge at most {MAX_LEN} bytes."
    );
    assert!(all.contains(&limits));
}

#[test]
fn the_version_is_the_crates() {
    let line = format!("joistdenim {}\n", env!("CARGO_PKG_VERSION"));
    assert_eq!(ran("--version", "").text(), line);
    assert_eq!(ran("-V", "").text(), line);
}

#[test]
fn wrong_commands_and_options() {
    wrong("", "a command is missing", "--help");
    for word in ["rename", "split", "--lst", "", "-", "x"] {
        let line =
            format!("joistdenim: there is no command {word:?}; 'joistdenim --help' tells more");
        ran_words([word.into()].into_iter(), "", false, false).failed(2, &line);
    }
    wrong("help rename", "there is no command \"rename\"", "--help");
    for name in COMMANDS {
        let help = format!("{name} --help");
        wrong(
            &format!("{name} --odd"),
            "there is no option \"--odd\"",
            &help,
        );
        wrong(&format!("{name} -x"), "there is no option \"-x\"", &help);
    }
    for option in ["--version", "-V", "--man"] {
        let text = format!("{option} stands alone");
        wrong(&format!("{option} list"), &text, "--help");
    }
    wrong("show -o t", "there is no option \"-o\"", "show --help");
    wrong("show -ot", "there is no option \"-ot\"", "show --help");
    wrong("list --tsv", "there is no option \"--tsv\"", "list --help");
}

/// A mistyped name, and the one that is nearest.
#[track_caller]
fn meant(arguments: &str, what: &str, word: &str, name: &str, help: &str) {
    let text = format!("there is no {what} {word:?}; did you mean {name}?");
    let line = format!("joistdenim: {text} 'joistdenim {help}' tells more");
    ran(arguments, "").failed(2, &line);
}

#[test]
fn a_mistyped_name_is_told_with_the_nearest() {
    for (word, name) in [
        ("lsit", "list"),
        ("lst", "list"),
        ("LIST", "list"),
        ("tabel", "table"),
        ("tablle", "table"),
        ("shwo", "show"),
        ("shaw", "show"),
        ("ct", "cut"),
        ("ins", "insert"),
        ("jion", "join"),
        ("chekc", "check"),
        ("buckets", "bucket"),
        ("--hlep", "--help"),
        ("--completion", "--completions"),
    ] {
        meant(word, "command", word, name, "--help");
        meant(&format!("help {word}"), "command", word, name, "--help");
    }
    for (command, word, name) in [
        ("show", "--txt", "--text"),
        ("show", "--TSV", "--tsv"),
        ("cut", "-text", "--text"),
        ("bucket", "--byte", "--bytes"),
        ("bucket", "--repotr", "--report"),
        ("list", "--out", "--output"),
        ("list", "--outptu=a", "--output"),
        ("list", "-O", "-o"),
        ("list", "--hlep", "--help"),
    ] {
        let help = format!("{command} --help");
        meant(&format!("{command} {word}"), "option", word, name, &help);
    }
}

#[test]
fn the_output_is_given_in_four_ways() {
    let folder = Folder::new();
    let t = folder.with("t.table", support::table(SHORT_T));
    for (number, option) in ["-o ", "-o", "--output ", "--output="]
        .into_iter()
        .enumerate()
    {
        let file = folder.at(&format!("list{number}"));
        for arguments in [format!("{option}{file} {t}"), format!("{t} {option}{file}")] {
            assert_eq!(ran(&format!("list {arguments}"), "").text(), "");
            let listed = fs::read_to_string(&file).expect("the list");
            assert_eq!(listed, LIST_OF_T);
            fs::remove_file(&file).expect("it is there");
        }
        let to_output = ran(&format!("list {t} {option}-"), "").text();
        assert_eq!(to_output, LIST_OF_T);
        let twice = format!("list t {option}a -ob");
        wrong(&twice, "-o is given twice", "list --help");
    }
    for arguments in ["list t -o", "list t --output", "list t --output="] {
        wrong(arguments, "-o needs a file", "list --help");
    }
    let words = ["list", "t", "-o", ""].map(Into::into).into_iter();
    let line = "joistdenim: -o needs a file; 'joistdenim list --help' tells more";
    ran_words(words, "", false, false).failed(2, line);
    let text = "no = stands behind -o: write -oFILE or --output=FILE";
    wrong("list t -o=a", text, "list --help");
}

#[test]
fn too_few_and_too_many_arguments() {
    let cases = [
        ("list", "one table", &["list", "list a b"][..]),
        ("table", "one list at most", &["table a b"]),
        (
            "cut",
            "left or right, a table and a key",
            &["cut", "cut left", "cut left - 41 42"],
        ),
        (
            "insert",
            "a table and a key",
            &["insert -", "insert - 41 42"],
        ),
        ("join", "two tables", &["join -", "join - a b"]),
        ("check", "tables", &["check"]),
        (
            "bucket",
            "translate, two prefixes and a bucket",
            &["bucket", "bucket translate 41 43"],
        ),
    ];
    for (name, takes, all) in cases {
        for arguments in all {
            wrong(
                arguments,
                &format!("{name} takes {takes}"),
                &format!("{name} --help"),
            );
        }
    }
    wrong("show", "show takes a table and keys", "show --help");
    wrong(
        "show -",
        "show takes keys, or - for keys on standard input",
        "show --help",
    );
    wrong(
        "cut up - 41",
        "\"up\" is neither left nor right",
        "cut --help",
    );
    wrong(
        "bucket cut 41 43 -",
        "bucket has no command \"cut\", only translate",
        "bucket --help",
    );
}

#[test]
fn standard_input_is_read_once() {
    let text = "standard input can be read only once";
    wrong("show - -", text, "show --help");
    wrong("show t - 41 -", text, "show --help");
    wrong("join - -", text, "join --help");
    wrong("check - t -", text, "check --help");
}

#[test]
fn a_key_over_64_bytes_is_refused() {
    let t = support::table(SHORT_T);
    let (digits, letters) = ("41".repeat(MAX_LEN + 1), "A".repeat(MAX_LEN + 1));
    let line = &format!("refused 2: {digits} has 65 bytes, and a key has at most 64");
    let shown =
        &format!("refused 2: {digits} \"{letters}\" has 65 bytes, and a key has at most 64");
    for (arguments, as_text) in [
        ("show - KEY", shown),
        ("cut left - KEY", line),
        ("insert - KEY", line),
    ] {
        ran(&arguments.replace("KEY", &digits), &t).failed(1, line);
        let as_written = format!("{arguments} --text").replace("KEY", &letters);
        ran(&as_written, &t).failed(1, as_text);
    }
    ran(&format!("bucket translate {digits} 43 -"), "").failed(1, line);
    ran(&format!("bucket translate 41 {digits} -"), "").failed(1, line);
}

#[test]
fn options_stand_anywhere_before_two_hyphens() {
    let t = support::table(SHORT_T);
    let cut = ran("cut --text left - A1", &t).done();
    assert_eq!(ran("cut left - A1 --text", &t).done(), cut);
    assert_eq!(ran("cut left --text -- - A1", &t).done(), cut);
    let below = ran("show --text - -- -A", &t);
    below.failed(
        1,
        "refused 5: 2d41 \"-A\" is outside the table, which goes from 4130 up to, but without, 42",
    );
}
