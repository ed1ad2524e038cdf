//! The list of what must be believed, docs/BELIEVED.md: the definitions that the contracts of calls and boundary and the
//! claims cite, with those that these use, each after what it uses; no other, and each claim in a row of its own.
use crate::definitions::Definitions;
use crate::evidence::Evidence;
use crate::report::Report;
use crate::repository::Repository;
use crate::roots::{self, Roots};
use crate::table::{self, spans_of};
use std::collections::BTreeSet;

pub const DOCUMENT: &str = "docs/BELIEVED.md";
const DEFINITIONS: &str = "Definitions";
const CLAIMS: &str = "Claims";
const SPECS: &str = "crates/model/specs";

/// For the contracts of inner functions alone.
const INNER: &str = "crates/model/specs/inner/";

/// A row: the definitions of one file that it names.
struct Row {
    at: usize,
    is_claims: bool,
    names: Vec<Evidence>,
    faults: Vec<String>,
}

pub fn check(repository: &Repository) -> Report {
    let mut report = Report::default();
    let Some(document) = repository.text(DOCUMENT) else {
        report.fail(format!("there is no {DOCUMENT}"));
        return report;
    };
    let definitions = Definitions::of(repository);
    for (path, line) in definitions.unread() {
        report.fail(format!("{path}:{line}: what is used here isn't understood"));
    }
    let claims = roots::claims(repository, &definitions);
    let mut wanted = roots::of_contracts(repository, &definitions, &mut report);
    wanted.extend(claims.clone());
    let wanted = closure(wanted, &definitions);
    let rows = rows(document, repository, &mut report);
    check_rows(&rows, &wanted, &definitions, &mut report);
    check_all(&rows, &wanted, &definitions, &mut report);
    check_claims(&rows, &claims, &mut report);
    report
}

/// With what each uses, and so on; beside each what it was first found by.
fn closure(roots: Roots, definitions: &Definitions) -> Roots {
    let mut next: Vec<Evidence> = roots.keys().cloned().collect();
    let mut all = roots;
    while let Some(of) = next.pop() {
        for used in definitions.uses(&of) {
            if !all.contains_key(&used) {
                all.insert(used.clone(), format!("{}:{}", of.path, of.name));
                next.push(used);
            }
        }
    }
    all
}

fn rows(document: &str, repository: &Repository, report: &mut Report) -> Vec<Row> {
    let mut found = vec![];
    for title in [DEFINITIONS, CLAIMS] {
        let Some(rows) = table::rows(document, title) else {
            report.fail(format!("{DOCUMENT}: there is no section `## {title}`"));
            continue;
        };
        let read = |row: &table::Row| Row::read(row, title == CLAIMS, repository);
        found.extend(rows.iter().map(read));
    }
    found
}

impl Row {
    fn read(row: &table::Row, is_claims: bool, repository: &Repository) -> Self {
        let cell = |i: usize| row.cells.get(i).map_or("", String::as_str);
        let spans = |i: usize| spans_of(cell(i)).into_iter().flatten();
        let file = spans(0).next().unwrap_or_default();
        let inside = format!("{SPECS}/{file}.antt");
        let in_model = repository.text(&inside).is_some();
        let path = if in_model { inside } else { file };
        let names: Vec<Evidence> = spans(1).map(|name| Evidence::at(&path, &name)).collect();
        let mut faults = vec![];
        if repository.text(&path).is_none() {
            faults.push(format!("there is no file `{path}`"));
        }
        if names.is_empty() || cell(2).is_empty() || row.cells.len() > 3 {
            faults.push("a row is a file, names, and what they say".to_string());
        }
        Row {
            at: row.at,
            is_claims,
            names,
            faults,
        }
    }

    fn path(&self) -> &str {
        self.names.first().map_or("", |name| &name.path)
    }
}

/// Each row names what is there and wanted, once and after what it uses, and a file's rows stand together.
fn check_rows(rows: &[Row], wanted: &Roots, definitions: &Definitions, report: &mut Report) {
    let all: BTreeSet<&Evidence> = rows.iter().flat_map(|row| &row.names).collect();
    let mut before: BTreeSet<&Evidence> = BTreeSet::new();
    let mut files: Vec<&str> = vec![];
    for row in rows {
        let mut faults = row.faults.clone();
        if files.last() != Some(&row.path()) {
            if files.contains(&row.path()) {
                faults.push("the rows of this file don't stand together".to_string());
            }
            files.push(row.path());
        }
        for of in &row.names {
            faults.extend(fault_of(of, wanted, definitions));
            let uses = definitions.uses(of);
            let late = uses
                .iter()
                .filter(|used| all.contains(used) && !before.contains(used));
            faults.extend(late.map(|late| {
                let (name, used, path) = (&of.name, &late.name, &late.path);
                format!("`{name}` stands before `{used}` of {path}, which it uses")
            }));
            if !before.insert(of) {
                faults.push(format!("`{}` is there twice", of.name));
            }
        }
        report.thing(&format!("{DOCUMENT}:{}", row.at), faults);
    }
}

fn fault_of(of: &Evidence, wanted: &Roots, definitions: &Definitions) -> Option<String> {
    let Evidence { path, name } = of;
    if definitions.line(of).is_none() {
        return Some(format!("there is no definition `{name}` in {path}"));
    }
    let unused = || format!("no contract of a call and no claim uses `{name}`");
    (!wanted.contains_key(of)).then(unused)
}

/// Each definition that is wanted is there, has a row, and isn't an inner one.
fn check_all(rows: &[Row], wanted: &Roots, definitions: &Definitions, report: &mut Report) {
    let listed: BTreeSet<&Evidence> = rows.iter().flat_map(|row| &row.names).collect();
    for (of, by) in wanted {
        let Evidence { path, name } = of;
        let line = definitions.line(of);
        let fault = if line.is_none() {
            Some(format!("there is no definition `{name}`, which {by} uses"))
        } else if path.starts_with(INNER) {
            Some(format!(
                "`{name}` is for inner functions alone, but {by} uses it"
            ))
        } else if !listed.contains(of) {
            Some(format!(
                "`{name}` has no row in {DOCUMENT}, but {by} uses it"
            ))
        } else {
            None
        };
        let place = line.map_or(path.clone(), |line| format!("{path}:{line}"));
        report.thing(&place, fault.into_iter().collect());
    }
}

fn check_claims(rows: &[Row], claims: &Roots, report: &mut Report) {
    let alone = |row: &&Row| row.is_claims && row.names.len() == 1;
    let told: BTreeSet<&Evidence> = rows.iter().filter(alone).flat_map(|r| &r.names).collect();
    for (claim, law) in claims {
        let name = &claim.name;
        let fault = || format!("`{name}` has no row of its own under `## {CLAIMS}` of {DOCUMENT}");
        report.thing(
            law,
            (!told.contains(claim)).then(fault).into_iter().collect(),
        );
    }
}
