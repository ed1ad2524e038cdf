//! A row of the table of contracts: how it is read, and whether its status fits.
use crate::evidence::Evidence;
use crate::refusals::{self, Numbers};
use crate::repository::Repository;
use crate::source::{Item, Kind};
use crate::table::{self, spans_of};
use crate::theorems::is_theorem;
use crate::words::words;

pub struct Contract {
    /// The row's line in the document, and the line in the source that it is about.
    pub at: usize,
    pub line: usize,
    clause: String,
    /// `None` where there is no such status.
    pub status: Option<Status>,
    /// The numbers of a status `refusal`.
    pub refusal: Option<Numbers>,
    evidence: Vec<Evidence>,
    remark: String,
    /// What can't be read of status and evidence.
    unread: Vec<String>,
}

#[derive(Clone, Copy, Debug, PartialEq)]
pub enum Status {
    Defined,
    Parts,
    Implied,
    Replaced,
    Refusal,
    Total,
    Dropped,
}

impl Contract {
    pub fn read(row: &table::Row) -> Result<Self, String> {
        let [line, clause, status, evidence, remark] = row.cells.as_slice() else {
            return Err(format!("{} cells, not 5", row.cells.len()));
        };
        let number = line.parse().map_err(|_| format!("`{line}` is no line"))?;
        let clause = match spans_of(clause).as_slice() {
            [Some(text)] if clause.starts_with('`') && clause.ends_with('`') => text.clone(),
            _ => return Err(format!("the clause isn't one span of code: {clause}")),
        };
        let mut unread = vec![];
        let refusal = refusals::read(status);
        let status = read_status(status);
        if status.is_none() {
            unread.push(format!("there is no status `{}`", row.cells[2]));
        }
        let evidence = read_evidence(evidence).unwrap_or_else(|fault| {
            unread.push(fault);
            vec![]
        });
        Ok(Contract {
            at: row.at,
            line: number,
            clause,
            status,
            refusal,
            evidence,
            remark: remark.clone(),
            unread,
        })
    }

    pub fn cites(&self, path: &str, name: &str) -> bool {
        self.evidence
            .iter()
            .any(|e| e.path == path && e.name == name)
    }

    /// The marks of sentences in the remark: S and a number.
    pub fn marks(&self) -> impl Iterator<Item = &str> {
        words(&self.remark).filter(|word| is_mark(word))
    }

    /// The definition by which the theorem renders a name, where the remark has "`name` by `definition`".
    pub fn rendered_by(&self, name: &str) -> Option<&str> {
        let said = format!("`{name}` by `");
        let (_, rest) = self.remark.split_once(&said)?;
        rest.split_once('`').map(|(definition, _)| definition)
    }

    /// What is wrong with it as the row of this item.
    pub fn faults(&self, item: &Item, repository: &Repository) -> Vec<String> {
        let mut faults = self.unread.clone();
        if self.clause != item.text {
            let (expected, found) = (&item.text, &self.clause);
            faults.push(format!("the text is `{expected}`, found `{found}`"));
        }
        faults.extend(self.evidence.iter().filter_map(|e| e.fault(repository)));
        if let Some(status) = self.status.filter(|_| self.unread.is_empty()) {
            faults.extend(self.misfit(status, item.kind).map(str::to_string));
        }
        faults
    }

    /// Why the status doesn't fit, if it doesn't.
    fn misfit(&self, status: Status, kind: Kind) -> Option<&'static str> {
        let theorem = self.evidence.iter().any(is_theorem);
        let none = self.evidence.is_empty();
        match (status, kind) {
            (Status::Parts, Kind::Head) if none => None,
            (Status::Parts, Kind::Head) => Some("`parts` has no evidence"),
            (_, Kind::Head) => Some("the head of a clause has the status `parts`"),
            (Status::Parts, _) => Some("`parts` is for the head of a clause"),
            (Status::Defined, Kind::Declaration) if none => Some("`defined` needs an evidence"),
            (Status::Defined, Kind::Declaration) => None,
            (Status::Defined, _) => Some("`defined` is for a declaration"),
            (Status::Dropped, _) if none && self.marks().next().is_none() => {
                Some("`dropped` needs an evidence, or the mark of a sentence in the remark")
            }
            (Status::Dropped, _) => None,
            (Status::Replaced, _) if self.remark.is_empty() => Some("`replaced` needs a remark"),
            (Status::Replaced, Kind::Declaration) => None,
            (_, Kind::Declaration) => {
                Some("a declaration has the status `defined`, `replaced` or `dropped`")
            }
            (Status::Total, Kind::Requires) if none => Some("`total` needs an evidence"),
            (Status::Total, Kind::Requires) => None,
            (Status::Total, _) => Some("`total` is for `requires`"),
            _ if !theorem => Some(
                "`implied`, `replaced` and `refusal` need a theorem of crates/contracts/proofs",
            ),
            _ => None,
        }
    }
}

pub fn is_mark(word: &str) -> bool {
    let digits = word.strip_prefix('S').unwrap_or("");
    !digits.is_empty() && digits.chars().all(|c| c.is_ascii_digit())
}

fn read_status(text: &str) -> Option<Status> {
    Some(match text {
        "defined" => Status::Defined,
        "parts" => Status::Parts,
        "implied" => Status::Implied,
        "replaced" => Status::Replaced,
        "total" => Status::Total,
        "dropped" => Status::Dropped,
        _ if refusals::read(text).is_some() => Status::Refusal,
        _ => return None,
    })
}

/// Spans of code, and between them only spaces and commas.
fn read_evidence(cell: &str) -> Result<Vec<Evidence>, String> {
    let between = cell.split('`').step_by(2).collect::<String>();
    if !between.chars().all(|c| c == ' ' || c == ',') {
        return Err(format!("the evidence isn't only `path:name`: {cell}"));
    }
    let read = |span: table::Span| {
        let text = span.unwrap_or_default();
        Evidence::of(&text).ok_or_else(|| format!("`{text}` is no `path:name`"))
    };
    spans_of(cell).into_iter().map(read).collect()
}
