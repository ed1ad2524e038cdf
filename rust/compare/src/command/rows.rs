//! `show --tsv`: the header, and each key's row.
use super::show::{self, Answer, Form};
use super::wanted::key_text;
use crate::cuts::small::EDGES;
use crate::group::Group;

const ROWS: Form = Form {
    options: &["--tsv"],
    is_looked_at: |_| true,
    lines: rows,
};

const HEADER: &str = "key\tslot\tleft\tright\tshared\tedge\trenamed\trefusal\n";
const NO_SLOT: &str = "\t\t\t\t";

fn rows(answers: &[Answer]) -> Vec<String> {
    let rows = answers.iter().map(row);
    [HEADER.into()].into_iter().chain(rows).collect()
}

/// The slot's columns are its line in the list.
fn row(answer: &Answer) -> String {
    let slot = answer.slot.unwrap_or(NO_SLOT);
    let (renamed, refusal) = match &answer.renamed {
        Ok(renamed) => (key_text(renamed), 0),
        Err(number) => (String::new(), *number),
    };
    format!("{}\t{slot}\t{renamed}\t{refusal}\n", key_text(answer.key))
}

pub fn small(group: &mut Group) {
    show::small(group, &ROWS, &EDGES);
}

pub fn random(group: &mut Group, count: usize) {
    show::random(group, &ROWS, count);
}

pub fn spoiled(group: &mut Group, count: usize) {
    show::spoiled(group, &ROWS, count);
}
