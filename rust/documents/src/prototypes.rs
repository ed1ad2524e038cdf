//! The functions of the boundary in the words of the three languages that declare them, with the line of each word.
use crate::functions::closing;
use crate::repository::Repository;
use crate::words::THIS_CRATE;
use std::ops::Range;

/// Before a function of Rattle's code that the archive has.
const EXPORTED: &str = "#[unsafe(no_mangle)]";

/// What holds declarations: in a header for C++, in Rust always.
const BLOCK: &str = "extern \"C\" {";

#[derive(Clone, Copy, PartialEq)]
pub enum Language {
    Rattle,
    C,
    Rust,
}

pub struct Words<'a> {
    pub line: usize,
    pub text: &'a str,
}

pub struct Prototype<'a> {
    pub name: Words<'a>,
    pub parameters: Vec<Words<'a>>,
    pub result: &'a str,
}

impl Language {
    /// Where its declarations are looked for.
    pub fn folder(self) -> &'static str {
        match self {
            Language::Rattle => "crates/joistdenim/src",
            Language::C => "include",
            Language::Rust => "rust",
        }
    }

    fn ending(self) -> &'static str {
        match self {
            Language::Rattle => ".rt",
            Language::C => ".h",
            Language::Rust => ".rs",
        }
    }

    /// Its files without comments. This crate's samples declare nothing.
    pub fn files(self, repository: &Repository) -> Vec<(&str, String)> {
        repository
            .under(self.folder())
            .filter(|(path, _)| path.ends_with(self.ending()) && !path.starts_with(THIS_CRATE))
            .map(|(path, text)| (path, self.code(text)))
            .collect()
    }

    /// The code alone, each line where it was.
    fn code(self, text: &str) -> String {
        let code = without_comments(text);
        if self != Language::C {
            return code;
        }
        let lines: Vec<&str> = code.lines().map(unless_directive).collect();
        lines.join("\n")
    }

    /// The functions that a file's code declares; for one that isn't understood, its line.
    pub fn prototypes(self, code: &str) -> Vec<Result<Prototype<'_>, usize>> {
        let pieces = match self {
            Language::Rattle => exported(code),
            Language::C | Language::Rust => declared(code),
        };
        let read = |piece: Range<usize>| {
            let begins = piece.end - code[piece.clone()].trim_start().len();
            self.prototype(code, piece).ok_or(line(code, begins))
        };
        pieces.into_iter().map(read).collect()
    }

    fn prototype(self, code: &str, piece: Range<usize>) -> Option<Prototype<'_>> {
        let open = piece.start + code[piece.clone()].find('(')?;
        let close = open + code[open..piece.end].find(')')?;
        let (before, name) = last_word(code[piece.start..open].trim());
        let after = code[close + 1..piece.end].trim();
        let result = match self {
            Language::Rattle => arrow("pub extern \"C\" fn", before, after)?,
            Language::C => Some(before).filter(|_| after.is_empty())?,
            Language::Rust => arrow("pub fn", before, after)?,
        };
        Some(Prototype {
            name: Words {
                line: line(code, open),
                text: name,
            },
            parameters: parts(code, open + 1..close),
            result,
        })
    }

    /// Name and type of a parameter.
    pub fn named(self, parameter: &str) -> Option<(&str, &str)> {
        match self {
            Language::Rattle | Language::Rust => {
                let (name, of) = parameter.split_once(':')?;
                Some((name.trim(), of.trim()))
            }
            Language::C => {
                let (of, name) = last_word(parameter);
                Some((name, of))
            }
        }
    }
}

fn without_comments(text: &str) -> String {
    let mut code = String::new();
    let mut rest = text;
    loop {
        let marks = [rest.find("//"), rest.find("/*")];
        let Some(at) = marks.into_iter().flatten().min() else {
            return code + rest;
        };
        let comment = &rest[at + 2..];
        let length = if rest[at..].starts_with("//") {
            comment.find('\n')
        } else {
            comment.find("*/").map(|length| length + 2)
        };
        let (comment, after) = comment.split_at(length.unwrap_or(comment.len()));
        code.push_str(&rest[..at]);
        code.push(' ');
        code.extend(comment.chars().filter(|c| *c == '\n'));
        rest = after;
    }
}

/// A line of C, or nothing in place of one for the preprocessor.
fn unless_directive(line: &str) -> &str {
    if line.starts_with('#') {
        ""
    } else {
        line
    }
}

/// From each exported function's mark to its contract's first clause, or to its body.
fn exported(code: &str) -> Vec<Range<usize>> {
    let piece = |(at, mark): (usize, &str)| {
        let start = at + mark.len();
        start..code[start..].find('{').map_or(code.len(), |n| start + n)
    };
    code.match_indices(EXPORTED).map(piece).collect()
}

/// What ends with a semicolon in the blocks and names a function of the library.
fn declared(code: &str) -> Vec<Range<usize>> {
    let mut pieces = vec![];
    for (at, mark) in code.match_indices(BLOCK) {
        let mut start = at + mark.len();
        let end = closing(code, start - 1);
        while let Some(length) = code[start..end].find(';') {
            pieces.push(start..start + length);
            start += length + 1;
        }
    }
    pieces.retain(|piece| code[piece.clone()].contains("jd_"));
    pieces
}

/// What stands before the last word, and the word.
fn last_word(text: &str) -> (&str, &str) {
    let apart = |c: char| !(c.is_ascii_alphanumeric() || c == '_');
    let (before, word) = text.split_at(text.rfind(apart).map_or(0, |at| at + 1));
    (before.trim_end(), word)
}

/// The result behind an arrow, where the function begins as it should.
fn arrow<'a>(begins: &str, before: &str, after: &'a str) -> Option<&'a str> {
    let result = after.strip_prefix("->")?.split_whitespace().next();
    result.filter(|_| before == begins)
}

/// What the commas part.
fn parts(code: &str, list: Range<usize>) -> Vec<Words<'_>> {
    let mut parts = vec![];
    let mut at = list.start;
    for part in code[list].split(',') {
        let text = part.trim_start();
        if !text.is_empty() {
            parts.push(Words {
                line: line(code, at + part.len() - text.len()),
                text: text.trim_end(),
            });
        }
        at += part.len() + 1;
    }
    parts
}

fn line(code: &str, at: usize) -> usize {
    1 + code[..at].matches('\n').count()
}
