//! The drawing of the crates in DEVELOPING.md, a line for each layer, the lowest last: every crate of the list stands in
//! it once, and is built on crates of lower layers alone.
use crate::report::Report;
use crate::repository::Repository;
use crate::words::words;
use std::collections::BTreeMap;

const LIST: &str = "crates.txt";
const DOCUMENT: &str = "docs/DEVELOPING.md";
const TITLE: &str = "## The layers";
const FENCE: &str = "```";

/// What the list has behind the name of a crate that is made a library for others.
const STATIC: &str = " staticlib";

/// What begins a remark, in the list and in the drawing.
const REMARK: char = '#';

pub fn check(repository: &Repository) -> Report {
    let mut report = Report::default();
    let list = repository.text(LIST).unwrap_or("");
    let drawn = drawn(repository.text(DOCUMENT).unwrap_or(""));
    let listed: BTreeMap<&str, Vec<&str>> = list.lines().filter_map(built_on).collect();
    for (name, below) in &listed {
        let faults = faults(name, below, &listed, &drawn);
        report.thing(&format!("{LIST}: {name}"), faults);
    }
    for (name, _) in drawn.iter().filter(|(name, _)| !listed.contains_key(name)) {
        report.fail(format!("{DOCUMENT}: {name} is no crate of {LIST}"));
    }
    if report.passed == 0 {
        report.fail(format!("no crate stands in its layer in {DOCUMENT}"));
    }
    report
}

/// A crate and what it is built on.
fn built_on(line: &str) -> Option<(&str, Vec<&str>)> {
    let (name, below) = without_remark(line).split_once(':')?;
    let name = name.strip_suffix(STATIC).unwrap_or(name).trim();
    Some((name, words(below).collect()))
}

fn without_remark(line: &str) -> &str {
    line.split(REMARK).next().unwrap_or("")
}

/// Each crate of the drawing and its layer, counted from the top.
fn drawn(document: &str) -> Vec<(&str, usize)> {
    let section = document.lines().skip_while(|line| *line != TITLE).skip(1);
    let mut block = section.skip_while(|line| !line.starts_with(FENCE));
    block.next();
    let layers = block.take_while(|line| !line.starts_with(FENCE));
    let named = |(layer, line)| words(without_remark(line)).map(move |name| (name, layer));
    layers.enumerate().flat_map(named).collect()
}

/// The toolchain's own crates, which aren't listed, lie below all.
fn faults(
    name: &str,
    below: &[&str],
    listed: &BTreeMap<&str, Vec<&str>>,
    drawn: &[(&str, usize)],
) -> Vec<String> {
    let layers = |of: &str| -> Vec<usize> {
        let found = drawn.iter().filter(|(drawn, _)| *drawn == of);
        found.map(|(_, layer)| *layer).collect()
    };
    let [own] = layers(name)[..] else {
        return vec![format!("it stands in {DOCUMENT} other than once")];
    };
    let of_list = below.iter().filter(|other| listed.contains_key(*other));
    let not_lower = of_list.filter(|other| layers(other).iter().any(|layer| *layer <= own));
    let told = |other: &&str| format!("it is built on {other}, which {DOCUMENT} has no lower");
    not_lower.map(told).collect()
}

#[cfg(test)]
mod tests {
    use super::{check, DOCUMENT, LIST};
    use crate::repository::Repository;
    use crate::sample::{fails, replaced};

    const FILES: [(&str, &str); 2] = [
        (
            LIST,
            "# The crates: NAME: what it is built on\n\nmodel:   # no functions\nscan: model   # runs\n\
             keys staticlib: model scan io   # compare\n",
        ),
        (
            DOCUMENT,
            "# Developing\n\n```\nother scan\n```\n\n## The layers\n\nOf crates:\n\n```\n\
             keys   # by their order\nscan   # bytes\nmodel\n```\n\n```\nscan\n```\n",
        ),
    ];

    #[track_caller]
    fn told(path: &str, from: &str, to: &str, wanted: &[&str]) {
        fails(&check(&replaced(&FILES, path, from, to)), wanted);
    }

    #[test]
    fn the_sample_passes() {
        let report = check(&Repository::of(&FILES));
        fails(&report, &[]);
        assert_eq!(report.passed, 3);
    }

    #[test]
    fn a_crate_stands_once() {
        let once = "crates.txt: scan: it stands in docs/DEVELOPING.md other than once";
        told(DOCUMENT, "scan   # bytes\n", "", &[once]);
        told(DOCUMENT, "\nmodel\n", "\nmodel scan\n", &[once]);
    }

    #[test]
    fn a_crate_is_built_on_lower_ones() {
        let level = "crates.txt: keys: it is built on scan, which docs/DEVELOPING.md has no lower";
        told(
            DOCUMENT,
            "keys   # by their order\nscan ",
            "keys scan ",
            &[level],
        );
        let turned = "scan: it is built on keys, which";
        told(LIST, "scan: model", "scan: model keys", &[turned]);
    }

    #[test]
    fn the_drawing_has_crates_alone() {
        let unknown = "docs/DEVELOPING.md: runs is no crate of crates.txt";
        told(
            DOCUMENT,
            "scan   # bytes",
            "scan runs   # bytes",
            &[unknown],
        );
    }

    #[test]
    fn where_nothing_is_looked_at_it_fails() {
        let once = |name| format!("{name}: it stands in docs/DEVELOPING.md other than once");
        let [model, scan, keys] = ["model", "scan", "keys"].map(once);
        let none = "no crate stands in its layer";
        told(
            DOCUMENT,
            "## The layers",
            "## Layers",
            &[&model, &scan, &keys, none],
        );
    }
}
