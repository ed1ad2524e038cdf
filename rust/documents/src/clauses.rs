//! The clauses `requires P(..)`: a theorem that is cited for one mentions P, and one clause has one status.
use crate::refusals::says;
use crate::report::Report;
use crate::rows::{Contract, Status};
use crate::theorems::Theorem;

/// A row of such a clause, what it requires, and whether a method does.
pub struct Clause<'a> {
    pub row: &'a Contract,
    pub name: &'a str,
    pub of_method: bool,
}

/// The name P of `requires P(..)`, also behind a `forall` or a premise; `None` for another clause.
pub fn required(text: &str) -> Option<&str> {
    let clause = text.strip_prefix("requires ")?;
    let clause = clause.rsplit("::").next()?.rsplit("==>").next()?;
    let (name, arguments) = clause.trim().trim_end_matches(';').split_once('(')?;
    let is_name = |c: char| c.is_ascii_alphanumeric() || "_.'".contains(c);
    if !name.chars().all(is_name) || !ends_in_its_bracket(arguments) {
        return None;
    }
    // `F.requires` is what F requires: F alone is the function
    match name.rsplit('.').next() {
        Some("requires") => Some(name),
        last => last,
    }
}

/// Whether the bracket that is open before this text is closed by its last character.
fn ends_in_its_bracket(text: &str) -> bool {
    let mut open = 1;
    for (i, c) in text.char_indices() {
        open += i32::from(c == '(') - i32::from(c == ')');
        if open == 0 {
            return i + 1 == text.len();
        }
    }
    false
}

pub fn check(document: &str, clauses: &[Clause], theorems: &[Theorem], report: &mut Report) {
    for (i, clause) in clauses.iter().enumerate() {
        let (at, name) = (clause.row.at, clause.name);
        if !clause.is_stated(theorems) {
            report.fail(format!(
                "{document}:{at}: no theorem of it mentions `{name}`, nor what a remark \"`{name}` by `..`\" names"
            ));
        }
        let others = &clauses[..i];
        if let Some(other) = others.iter().find(|other| clause.differs(other)) {
            let there = other.row.at;
            report.fail(format!(
                "{document}:{at}: `{name}` has another status at {document}:{there}"
            ));
        }
    }
}

impl Clause<'_> {
    /// Where theorems are cited, one mentions the name, or the definition that the remark renders it by.
    fn is_stated(&self, theorems: &[Theorem]) -> bool {
        let row = self.row;
        let mut cited = theorems.iter().filter(|t| row.cites(&t.path, &t.name));
        let names = [Some(self.name), row.rendered_by(self.name)];
        let mentions = |theorem: &Theorem| {
            let said = |name: &str| says(&theorem.statement, &[name.to_string()]);
            names.iter().flatten().any(|name| said(name))
        };
        cited.clone().next().is_none() || cited.any(mentions)
    }

    /// Whether the same is required with another status: by methods, or dropped only in one place.
    fn differs(&self, other: &Clause) -> bool {
        let status = |clause: &Clause| (clause.row.status, clause.row.refusal);
        let dropped = |clause: &Clause| clause.row.status == Some(Status::Dropped);
        let by_methods = self.of_method && other.of_method;
        self.name == other.name
            && (dropped(self) != dropped(other) || by_methods && status(self) != status(other))
    }
}
