//! Words, and those of the code.

/// This crate names things that don't exist, as samples and exceptions: its words show nothing.
pub const THIS_CRATE: &str = "rust/documents/";

pub fn is_code(path: &str) -> bool {
    let folder = path.split_once('/').map_or("", |(folder, _)| folder);
    let ending = ending(path);
    match folder {
        "crates" => ending == "rt" || ending == "antt",
        "rust" => ending != "lock" && !path.starts_with(THIS_CRATE),
        "docs" => ending == "dfy",
        "dafny" => ending != "txt",
        "include" | "tests" | ".ci" | "examples" => true,
        _ => path == "crates.txt",
    }
}

fn ending(path: &str) -> &str {
    path.rsplit_once('.').map_or("", |(_, ending)| ending)
}

/// Words outside comments; the source's count everywhere. A law's name, of words joined by hyphens or underscores, is one
/// word, and counts where it is brought in: what is brought in is public somewhere.
pub fn words_of_code(path: &str, text: &str) -> Vec<String> {
    let mark = match ending(path) {
        "dfy" if path.starts_with("docs/") => None,
        "antt" => Some("--"),
        "rt" | "rs" | "c" | "h" | "dfy" => Some("//"),
        _ => Some("#"),
    };
    let mut found = vec![];
    let mut block = false;
    for line in text.lines() {
        block |= line.trim_start().starts_with("/*");
        if !block {
            let code = mark.map_or(line, |mark| line.split(mark).next().unwrap_or(""));
            if mark == Some("--") {
                let brought_in = code.starts_with("use ");
                let is_law =
                    |token: &str| token.contains('-') || token.contains('_') && !brought_in;
                found.extend(tokens(code).into_iter().filter(|token| !is_law(token)));
            } else {
                found.extend(words(code));
            }
        }
        block &= !line.contains("*/");
    }
    found.into_iter().map(str::to_string).collect()
}

/// Runs of letters, digits and underscores.
pub fn words(text: &str) -> impl Iterator<Item = &str> {
    text.split(|c: char| !(c.is_ascii_alphanumeric() || c == '_'))
        .filter(|word| !word.is_empty())
}

/// Names: words, joined by `::` or, before a letter, by hyphens.
pub fn tokens(text: &str) -> Vec<&str> {
    let apart = |c: char| !(c.is_ascii_alphanumeric() || "_-:".contains(c));
    let joined = |token: &str| {
        let after = token
            .split_once('-')
            .and_then(|(_, rest)| rest.chars().next());
        token.contains("::") || after.is_some_and(|c| c.is_ascii_alphabetic())
    };
    let mut found = vec![];
    for token in text
        .split(apart)
        .map(|token| token.trim_matches(['-', ':']))
    {
        if joined(token) {
            found.push(token);
        } else {
            found.extend(words(token));
        }
    }
    found
}
