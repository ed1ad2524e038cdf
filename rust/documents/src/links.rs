//! Links of the README and the documents: each leads to a file or folder and, behind a `#`, to a heading there; and
//! the README leads to every document.
use crate::names::is_document;
use crate::report::Report;
use crate::repository::Repository;
use std::collections::BTreeSet;

const README: &str = "README.md";

pub fn check(repository: &Repository) -> Report {
    let mut report = Report::default();
    let mut from_readme = BTreeSet::new();
    for (path, text) in repository.files().filter(|(path, _)| is_document(path)) {
        for (line, target) in targets(text) {
            let (file, _) = parts(path, target);
            let faults = fault(repository, path, target).into_iter().collect();
            report.thing(&format!("{path}:{line}: ({target})"), faults);
            if path == README {
                from_readme.insert(file);
            }
        }
    }
    for (path, _) in repository.files().filter(|(path, _)| is_page(path)) {
        if !from_readme.contains(path) {
            report.fail(format!("{README}: no link to {path}"));
        }
    }
    report
}

/// A document beside the notes on single changes and the source.
fn is_page(path: &str) -> bool {
    let name = path.strip_prefix("docs/");
    name.is_some_and(|name| !name.contains('/') && name.ends_with(".md"))
}

/// Where the links of this repository lead, each with its line; fenced blocks have none.
fn targets(document: &str) -> Vec<(usize, &str)> {
    let mut found = vec![];
    let mut fenced = false;
    for (i, line) in document.lines().enumerate() {
        fenced ^= line.trim_start().starts_with("```");
        let links = line.split("](").skip(1).filter(|_| !fenced);
        let inside = links.filter_map(|rest| Some(rest.split_once(')')?.0));
        let here = inside.filter(|target| !target.contains("://"));
        found.extend(here.map(|target| (i + 1, target)));
    }
    found
}

/// The path from the root that a link in this document has, and its heading.
fn parts<'a>(document: &str, target: &'a str) -> (String, Option<&'a str>) {
    let (file, heading) = match target.split_once('#') {
        Some((file, heading)) => (file, Some(heading)),
        None => (target, None),
    };
    if file.is_empty() {
        return (document.to_string(), heading);
    }
    let mut names: Vec<&str> = document.split('/').collect();
    names.pop();
    for name in file.split('/') {
        match name {
            ".." => drop(names.pop()),
            _ => names.push(name),
        }
    }
    (names.join("/"), heading)
}

fn fault(repository: &Repository, document: &str, target: &str) -> Option<String> {
    let (path, heading) = parts(document, target);
    if !repository.has(&path) {
        return Some(format!("there is no {path}"));
    }
    let heading = heading?;
    let there = repository
        .text(&path)
        .is_some_and(|text| headings(text).any(|name| name == heading));
    (!there).then(|| format!("{path} has no heading {heading}"))
}

/// The headings of a document as links name them: small letters, digits and - for a space.
fn headings(document: &str) -> impl Iterator<Item = String> + '_ {
    let titles = document.lines().filter(|line| line.starts_with('#'));
    let named = |c: char| match c {
        ' ' => Some('-'),
        _ if c.is_alphanumeric() || "-_".contains(c) => Some(c),
        _ => None,
    };
    titles.map(move |line| {
        let title = line.trim_start_matches('#').trim();
        title.to_lowercase().chars().filter_map(named).collect()
    })
}

#[cfg(test)]
mod tests {
    use super::*;

    const FORMAT: (&str, &str) = ("docs/FORMAT.md", "# Formats\n\n## `A` pair, and more\n");

    fn failures(readme: &str) -> Vec<String> {
        let note =
            "[format](../FORMAT.md#formats), [here](#w1), [readme](../../README.md)\n\n# W1\n";
        let files = [(README, readme), FORMAT, ("docs/changes/W1.md", note)];
        check(&Repository::of(&files)).failures
    }

    #[test]
    fn links_that_lead_somewhere() {
        let readme = "[a](docs/FORMAT.md) [b](docs/FORMAT.md#a-pair-and-more) [c](docs) [d](https://e.f/g)\n";
        assert!(failures(readme).is_empty());
    }

    #[test]
    fn links_that_lead_nowhere() {
        let readme =
            "[a](docs/FORMAT.md)\n[b](docs/FORM.md) [c](docs/FORMAT.md#pairs)\n[d](#formats)\n";
        let wanted = [
            "README.md:2: (docs/FORM.md): there is no docs/FORM.md",
            "README.md:2: (docs/FORMAT.md#pairs): docs/FORMAT.md has no heading pairs",
            "README.md:3: (#formats): README.md has no heading formats",
        ];
        assert_eq!(failures(readme), wanted);
    }

    #[test]
    fn a_document_without_a_link() {
        let wanted = ["README.md: no link to docs/FORMAT.md"];
        assert_eq!(failures("`docs/FORMAT.md`\n"), wanted);
        assert_eq!(failures("```\n[a](docs/FORMAT.md)\n```\n"), wanted);
    }
}
