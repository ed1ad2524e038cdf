//! Names in code style, in the README and the documents: each is something that exists.
use crate::known::Known;
use crate::report::Report;
use crate::repository::Repository;
use crate::table::spans;
use std::collections::BTreeSet;

/// Pages that tell what had which name before.
const OF_BEFORE: [&str; 5] = [
    "docs/PORT.md",
    "docs/PORT-NAMES.md",
    "docs/DESIGN-PASS.md",
    "docs/DESIGN-CHANGES.md",
    "docs/LOOK-BACK.md",
];

/// An exception is a piece of a span that may stand though nothing has that name, with the reason.
pub fn check(repository: &Repository, exceptions: &[(&str, &str)]) -> Report {
    let known = Known::of(repository);
    let mut report = Report::default();
    let mut used = BTreeSet::new();
    let of_now = |path: &str| is_document(path) && !OF_BEFORE.contains(&path);
    for (path, text) in repository.files().filter(|(path, _)| of_now(path)) {
        for (line, span) in spans(text) {
            let place = format!("{path}:{line}");
            let Some(span) = span else {
                report.fail(format!("{place}: a span of code doesn't end on its line"));
                continue;
            };
            let mut faults = vec![];
            let pieces = span.split_whitespace().filter(|_| !known.quotes(&span));
            for piece in pieces.map(bare) {
                let excepted = exceptions.iter().find(|(name, _)| *name == piece);
                match (known.fault(piece), excepted) {
                    (Some(_), Some((name, _))) => drop(used.insert(*name)),
                    (fault, _) => faults.extend(fault),
                }
            }
            report.thing(&format!("{place}: `{span}`"), faults);
        }
    }
    for (name, _) in exceptions.iter().filter(|(name, _)| !used.contains(name)) {
        report.fail(format!("no document needs the exception `{name}`"));
    }
    report
}

/// The README, the changelog, and what is written in docs.
pub fn is_document(path: &str) -> bool {
    let in_docs = path.starts_with("docs/") && !path.starts_with("docs/src/");
    path == "README.md" || path == "CHANGELOG.md" || (in_docs && path.ends_with(".md"))
}

/// Without quotes, brackets and commas around it.
fn bare(piece: &str) -> &str {
    piece.trim_matches(|c: char| !c.is_alphanumeric() && !"_./*-".contains(c))
}
