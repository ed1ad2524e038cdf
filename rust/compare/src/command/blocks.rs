//! `show` in blocks: each key with its slot, what it is renamed to, and what is marked in both. A
//! refused key has no block.
use super::show::{self, Answer, Form};
use super::wanted::key_text;
use crate::group::Group;

/// All lines but the edge, which has a note where there are no digits.
const BLOCKS: Form = Form {
    options: &[],
    is_looked_at: |line| line != "\n" && !line.starts_with("edge "),
    lines: |answers| answers.iter().flat_map(block).collect(),
};

fn block(answer: &Answer) -> Vec<String> {
    let (Some(slot), Ok(renamed)) = (answer.slot, &answer.renamed) else {
        return vec![];
    };
    let fields: Vec<&str> = slot.split('\t').collect();
    let [slot, left, right, shared, edge] = fields[..] else {
        unreachable!("a line has five fields")
    };
    let (old, new) = match edge {
        "-" => ("", ""),
        "." => (shared, ""),
        _ => (shared, edge),
    };
    let (left, right) = (shown(left), shown(right));
    let mut lines = marked("key", answer.key, old, "replaced");
    lines.push(format!("slot     {slot}, from {left} up to {right}\n"));
    lines.push(format!("shared   {}\n", shown(shared)));
    lines.extend(marked("renamed", renamed, new, "in its place"));
    lines
}

/// A key of the list as it stands in a block.
fn shown(key: &str) -> String {
    match key {
        "-" => "- (empty)".into(),
        _ => key.into(),
    }
}

/// A key and, below it, as many marks as `head` has digits.
fn marked(label: &str, key: &[u8], head: &str, note: &str) -> Vec<String> {
    let key = shown(&key_text(key));
    let mut lines = vec![format!("{label:<9}{key}\n")];
    if !head.is_empty() {
        lines.push(format!("{:9}{} {note}\n", "", "^".repeat(head.len())));
    }
    lines
}

pub fn small(group: &mut Group) {
    show::small(group, &BLOCKS, &[&[], &[0x43]]);
}

pub fn random(group: &mut Group, count: usize) {
    show::random(group, &BLOCKS, count);
}
