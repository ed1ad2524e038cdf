//! What lists all refusals, counts them or tells their order agrees with `number` and `turn`: names, count and order
//! are taken from there.
use crate::numbering::{in_words, Numbering, DEFINITIONS};
use crate::places::{Place, Says};
use crate::report::Report;
use crate::repository::Repository;
use crate::words::words;
use std::collections::BTreeSet;

/// Files that tell how it was, patches of what is not done, and this crate, which has samples.
const APART: [&str; 4] = [
    "CHANGELOG.md",
    "docs/changes/",
    "docs/unfinished/",
    "rust/documents/",
];

/// What a place says, piece by piece, each with its line, and the line where it ends.
struct Said<'a> {
    pieces: Vec<(usize, &'a str)>,
    end: usize,
}

/// The lines that belong to places; 0 stands for a file that has one.
type Lines<'a> = BTreeSet<(&'a str, usize)>;

pub fn check(repository: &Repository, places: &[Place]) -> Report {
    let mut report = Report::default();
    let numbering = Numbering::of(repository);
    if numbering.count() == 0 {
        report.fail(format!("{DEFINITIONS}:1: no clause of `number` is there"));
        return report;
    }
    for (line, fault) in numbering.faults() {
        report.fail(format!("{DEFINITIONS}:{line}: {fault}"));
    }
    let mut seen = Lines::new();
    for place in places {
        seen.insert((place.path, 0));
        match said(place, repository.text(place.path).unwrap_or("")) {
            Ok(said) => {
                seen.extend(said.pieces.iter().map(|(line, _)| (place.path, *line)));
                compare(place, &said, &numbering, &mut report);
            }
            Err(fault) => report.fail(format!("{}:{fault}", place.path)),
        }
    }
    check_others(repository, &numbering, &seen, &mut report);
    report
}

fn said<'a>(place: &Place, text: &'a str) -> Result<Said<'a>, String> {
    let starts: Vec<usize> = text.match_indices(place.from).map(|(at, _)| at).collect();
    let line_at = |at: usize| 1 + text[..at].matches('\n').count();
    let start = match starts[..] {
        [start] => start + place.from.len(),
        [_, second, ..] => {
            let line = line_at(second);
            return Err(format!("{line}: `{}` is there again", place.from.trim()));
        }
        [] => return Err(format!("1: `{}` isn't there", place.from.trim())),
    };
    let (line, rest) = (line_at(start), &text[start..]);
    if let Says::Lines(_) = place.says {
        return Ok(lines(line, rest, place.to));
    }
    match (rest.split_once(place.to), &place.says) {
        (None, _) => Err(format!("{line}: no `{}` ends it", place.to)),
        (Some((inside, _)), Says::Names(mark)) => Ok(row(line, inside, mark)),
        (Some((inside, _)), _) => Ok(row(line, inside, ",")),
    }
}

fn lines<'a>(line: usize, rest: &'a str, to: &str) -> Said<'a> {
    let mut pieces = vec![];
    let mut end = line;
    for text in rest.lines().skip(1).map(str::trim) {
        end += 1;
        if text.starts_with(to) && text.is_empty() == to.is_empty() {
            break;
        }
        let passed_over = ["//", "--"].iter().any(|mark| text.starts_with(mark));
        if !text.is_empty() && !passed_over {
            pieces.push((end, text));
        }
    }
    Said { pieces, end }
}

/// What stands between marks. A row may go over several lines of a comment, whose own marks don't count.
fn row<'a>(line: usize, inside: &'a str, mark: &str) -> Said<'a> {
    let mut pieces = vec![];
    let mut end = line;
    for piece in inside.split(mark) {
        end += piece.matches('\n').count();
        let bare = piece.trim_matches(|c: char| c.is_whitespace() || "*/!".contains(c));
        if !bare.is_empty() {
            pieces.push((end, bare));
        }
    }
    Said { pieces, end }
}

/// Up to the first piece that differs, since those behind it may have moved.
fn compare(place: &Place, said: &Said, numbering: &Numbering, report: &mut Report) {
    let path = place.path;
    let wanted = wanted(place, said, numbering);
    for (i, wanted) in wanted.iter().enumerate() {
        let fault = match said.pieces.get(i) {
            Some((_, piece)) if fits(place, piece, wanted) => {
                report.passed += 1;
                continue;
            }
            Some((line, piece)) => format!("{line}: `{wanted}` is expected, found `{piece}`"),
            None => format!("{}: `{wanted}` is missing", said.end),
        };
        return report.fail(format!("{path}:{fault}"));
    }
    if let Some((line, piece)) = said.pieces.get(wanted.len()) {
        report.fail(format!("{path}:{line}: `{piece}` is one too many"));
    }
}

fn wanted(place: &Place, said: &Said, numbering: &Numbering) -> Vec<String> {
    match place.says {
        Says::Lines(template) => numbering.filled(template),
        Says::Names(_) => numbering.filled("{name}"),
        Says::Order => numbering.order(),
        Says::Last => numbering.filled("{c}").pop().into_iter().collect(),
        Says::Count => {
            let digits =
                |(_, piece): &(usize, &str)| piece.starts_with(|c: char| c.is_ascii_digit());
            match said.pieces.first().is_some_and(digits) {
                true => vec![numbering.count().to_string()],
                false => vec![in_words(numbering.count())],
            }
        }
    }
}

fn fits(place: &Place, piece: &str, wanted: &str) -> bool {
    match (&place.says, wanted.split_once('*')) {
        (Says::Lines(_), Some((head, tail))) => {
            let rest = piece.strip_prefix(head);
            let inside = rest.and_then(|rest| rest.strip_suffix(tail));
            inside.is_some_and(|inside| fits_between(head, inside, tail))
        }
        (Says::Count, _) => piece.eq_ignore_ascii_case(wanted),
        _ => piece == wanted,
    }
}

/// What stands for a `*` is no rest of a word or number, and nothing that ends as the line does: a second refusal on the
/// same line would.
fn fits_between(head: &str, inside: &str, tail: &str) -> bool {
    let in_word = |c: char| c.is_alphanumeric() || c == '_';
    let goes_on = head.ends_with(in_word) && inside.starts_with(in_word);
    let ends = |mark: char| inside.contains(mark);
    !goes_on && !tail.chars().next().is_some_and(ends)
}

/// Whatever else names all of them, tells the order or says how many there are must become a place.
fn check_others(repository: &Repository, numbering: &Numbering, seen: &Lines, report: &mut Report) {
    let order = numbering.order().join(", ");
    let [word, digits] = [in_words(numbering.count()), numbering.count().to_string()]
        .map(|count| format!("{count} refusals"));
    let looked_at = |path: &str| !APART.iter().any(|apart| path.starts_with(apart));
    for (path, text) in repository.files().filter(|(path, _)| looked_at(path)) {
        if !seen.contains(&(path, 0)) && path != DEFINITIONS && names_all(text, numbering) {
            report.fail(format!(
                "{path}:1: it names all refusals, and is no place of the table"
            ));
        }
        for (i, line) in text.lines().enumerate() {
            let tells = [&order, &word, &digits]
                .into_iter()
                .find(|told| line.contains(*told));
            if let Some(told) = tells.filter(|_| !seen.contains(&(path, i + 1))) {
                let fault = format!("`{told}` is no place of the table");
                report.fail(format!("{path}:{}: {fault}", i + 1));
            }
        }
    }
}

fn names_all(text: &str, numbering: &Numbering) -> bool {
    let there: BTreeSet<&str> = words(text).collect();
    let in_c = numbering.filled("{c}");
    numbering.names().all(|name| there.contains(name))
        || in_c.iter().all(|name| there.contains(&name[..]))
}
