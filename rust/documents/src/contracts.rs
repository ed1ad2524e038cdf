//! The table of the source's contracts, docs/CONTRACTS.md: every declaration and clause has its row, every row its
//! evidence, and every theorem a row.
use crate::clauses::{self, Clause};
use crate::numbering::Numbering;
use crate::refusals;
use crate::report::Report;
use crate::repository::Repository;
use crate::rows::{is_mark, Contract, Status};
use crate::source::{items, Item, Kind};
use crate::table;
use crate::theorems::{theorems, twice, Theorem, FILES};
use std::collections::BTreeSet;

pub const DOCUMENT: &str = "docs/CONTRACTS.md";
const FOLDER: &str = "docs/src/lib/Buckets";
const SENTENCES: &str = "Sentences of document 01";
const COUNTS: &str = "Clauses: ";

/// A file of the source and the rows about it.
struct File {
    path: String,
    title: &'static str,
    items: Vec<Item>,
    rows: Vec<Contract>,
}

pub fn check(repository: &Repository) -> Report {
    let mut report = Report::default();
    let Some(document) = repository.text(DOCUMENT) else {
        report.fail(format!("there is no {DOCUMENT}"));
        return report;
    };
    let files: Vec<File> = FILES
        .iter()
        .map(|(title, _)| read(repository, document, title, &mut report))
        .collect();
    for file in &files {
        check_rows(file, repository, &mut report);
    }
    check_marks(document, &files, &mut report);
    let theorems = theorems(repository);
    check_theorems(&files, &theorems, &mut report);
    check_refusals(&files, &theorems, &Numbering::of(repository), &mut report);
    let clauses: Vec<Clause> = files.iter().flat_map(File::clauses).collect();
    clauses::check(DOCUMENT, &clauses, &theorems, &mut report);
    check_counts(document, &files, &mut report);
    report
}

fn read(repository: &Repository, document: &str, title: &'static str, report: &mut Report) -> File {
    let path = format!("{FOLDER}/{title}");
    let source = repository.text(&path).unwrap_or_else(|| {
        report.fail(format!("there is no {path}"));
        ""
    });
    let rows = table::rows(document, title).unwrap_or_else(|| {
        report.fail(format!("{DOCUMENT}: there is no section `## {title}`"));
        vec![]
    });
    let mut read = vec![];
    for row in &rows {
        match Contract::read(row) {
            Ok(contract) => read.push(contract),
            Err(fault) => report.fail(format!("{DOCUMENT}:{}: {fault}", row.at)),
        }
    }
    File {
        items: items(source),
        path,
        title,
        rows: read,
    }
}

impl File {
    fn item(&self, line: usize) -> Option<&Item> {
        self.items.iter().find(|item| item.line == line)
    }

    fn row(&self, line: usize) -> Option<&Contract> {
        self.rows.iter().find(|row| row.line == line)
    }

    /// The rows of clauses that require something by its name.
    fn clauses(&self) -> impl Iterator<Item = Clause<'_>> {
        self.items.iter().filter_map(|item| {
            let name = clauses::required(&item.text)?;
            let row = self.row(item.line)?;
            let above = self.items.iter().take_while(|i| i.line < item.line);
            let declared = above.filter(|i| i.kind == Kind::Declaration).last()?;
            let of_method = declared.text.starts_with("method ");
            Some(Clause {
                row,
                name,
                of_method,
            })
        })
    }

    fn faults(&self, row: &Contract, repository: &Repository) -> Vec<String> {
        let Some(item) = self.item(row.line) else {
            let path = &self.path;
            return vec![format!("nothing at {path}:{} can have a row", row.line)];
        };
        let mut faults = row.faults(item, repository);
        let first = self.row(row.line).map_or(row.at, |first| first.at);
        if first != row.at {
            faults.push(format!("line {first} is a row of it already"));
        }
        faults
    }
}

fn check_rows(file: &File, repository: &Repository, report: &mut Report) {
    for row in &file.rows {
        let place = format!("{DOCUMENT}:{}: {} {}", row.at, file.title, row.line);
        report.thing(&place, file.faults(row, repository));
    }
    for item in file.items.iter().filter(|item| item.kind != Kind::Comment) {
        if file.row(item.line).is_none() {
            let (path, line, text) = (&file.path, item.line, &item.text);
            report.fail(format!("{path}:{line}: no row in {DOCUMENT} for `{text}`"));
        }
    }
}

/// Each mark has one sentence and a row that uses it, and rows use no other marks.
fn check_marks(document: &str, files: &[File], report: &mut Report) {
    let rows = || files.iter().flat_map(|file| &file.rows);
    let used: BTreeSet<&str> = rows().flat_map(Contract::marks).collect();
    let sentences = table::rows(document, SENTENCES).unwrap_or_default();
    let mut known = BTreeSet::new();
    for row in &sentences {
        let mark = row.cells.first().map_or("", String::as_str);
        let sentence = row.cells.get(1).map_or("", String::as_str);
        let mut faults = vec![];
        if !is_mark(mark) || sentence.is_empty() || row.cells.len() > 2 {
            faults.push(format!(
                "`{mark}`: a row is S with a number, and a sentence"
            ));
        } else if !used.contains(mark) {
            faults.push(format!("no row uses {mark}"));
        }
        if !known.insert(mark) {
            faults.push(format!("{mark} is there twice"));
        }
        report.thing(&format!("{DOCUMENT}:{}: {SENTENCES}", row.at), faults);
    }
    for row in rows() {
        for mark in row.marks().filter(|mark| !known.contains(mark)) {
            let at = row.at;
            report.fail(format!("{DOCUMENT}:{at}: {mark} isn't in `## {SENTENCES}`"));
        }
    }
}

fn check_theorems(files: &[File], theorems: &[Theorem], report: &mut Report) {
    for theorem in theorems {
        let place = format!("{}:{}: {}", theorem.path, theorem.at, theorem.name);
        report.thing(&place, faults_of(theorem, files));
    }
    for (name, places) in twice(theorems) {
        report.fail(format!("{places}: {name} is there more than once"));
    }
}

/// Of the theorems that a row with the number of a refusal cites, one states it.
fn check_refusals(
    files: &[File],
    theorems: &[Theorem],
    numbering: &Numbering,
    report: &mut Report,
) {
    for row in files.iter().flat_map(|file| &file.rows) {
        let Some(numbers) = row.refusal else { continue };
        let at = row.at;
        let Some(wanted) = refusals::words_of(numbers, numbering) else {
            report.fail(format!("{DOCUMENT}:{at}: no refusal has that number"));
            continue;
        };
        let cited = || theorems.iter().filter(|t| row.cites(&t.path, &t.name));
        let states = |theorem: &Theorem| refusals::says(&theorem.statement, &wanted);
        if cited().next().is_some() && !cited().any(states) {
            let wanted = wanted.join(" .. ");
            report.fail(format!(
                "{DOCUMENT}:{at}: no theorem of it states `{wanted}`"
            ));
        }
    }
}

fn faults_of(theorem: &Theorem, files: &[File]) -> Vec<String> {
    let file = &files[theorem.file];
    let (path, line) = (&file.path, theorem.line);
    let Some(item) = file.item(line) else {
        return vec![format!("nothing at {path}:{line} can have a row")];
    };
    let mut faults = vec![];
    let cites = |row: &&Contract| row.cites(&theorem.path, &theorem.name);
    if file.row(line).filter(cites).is_none() {
        let rows = files.iter().flat_map(|file| &file.rows).filter(cites);
        let others: String = rows
            .map(|row| format!(", but {DOCUMENT}:{} does", row.at))
            .collect();
        faults.push(format!("the row of {path}:{line} doesn't cite it{others}"));
    }
    if !theorem.comment.starts_with(&item.text) {
        let (expected, found) = (&item.text, &theorem.comment);
        faults.push(format!(
            "the comment above must begin `{expected}`, found `{found}`"
        ));
    }
    faults
}

/// The one line that begins with `Clauses: ` is what is counted.
fn check_counts(document: &str, files: &[File], report: &mut Report) {
    let counted = counts(files);
    let lines = document.lines().enumerate();
    let found: Vec<_> = lines.filter(|(_, line)| line.starts_with(COUNTS)).collect();
    let (at, fault) = match found.as_slice() {
        [(i, line)] if *line == counted => (Some(i), None),
        [(i, line)] => (
            Some(i),
            Some(format!("expected `{counted}`, found `{line}`")),
        ),
        [] => (None, Some(format!("the line `{counted}` is missing"))),
        [_, (i, _), ..] => (Some(i), Some("a second line of counts".to_string())),
    };
    let line = at.map_or(String::new(), |i| format!(":{}", i + 1));
    report.thing(&format!("{DOCUMENT}{line}"), fault.into_iter().collect());
}

fn counts(files: &[File]) -> String {
    let is_clause = |item: &&Item| matches!(item.kind, Kind::Requires | Kind::Ensures);
    let clauses = || {
        files
            .iter()
            .flat_map(|f| f.items.iter().filter(is_clause).map(move |i| (f, i)))
    };
    let statuses: Vec<Status> = clauses()
        .filter_map(|(file, item)| file.row(item.line)?.status)
        .collect();
    let of = |wanted: Status| statuses.iter().filter(|status| **status == wanted).count();
    format!(
        "{COUNTS}{}. Implied by a theorem: {}. Replaced by a theorem: {}. Refusals: {}. Total definitions: {}. Dropped: {}.",
        clauses().count(),
        of(Status::Implied),
        of(Status::Replaced),
        of(Status::Refusal),
        of(Status::Total),
        of(Status::Dropped),
    )
}
