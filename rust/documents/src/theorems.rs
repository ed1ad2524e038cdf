//! The theorems, which are named after a file and a line of the source, with a letter where there are several.
use crate::evidence::{public, Evidence};
use crate::repository::Repository;
use crate::source::collapsed;
use std::collections::BTreeMap;

const FOLDER: &str = "crates/contracts/proofs";

/// The files of the source, and how the names of their theorems begin.
pub const FILES: [(&str, &str); 3] = [
    ("BoundedPivotsLib.i.dfy", "bounded_pivots"),
    ("TranslationLib.i.dfy", "translation_lib"),
    ("TranslationImpl.i.dfy", "translation_impl"),
];

pub struct Theorem {
    pub path: String,
    pub name: String,
    /// Its own line, the file of the source that it is about, as an index, and the line there.
    pub at: usize,
    pub file: usize,
    pub line: usize,
    /// The comment directly above, and what it states.
    pub comment: String,
    pub statement: String,
}

pub fn theorems(repository: &Repository) -> Vec<Theorem> {
    let mut found = vec![];
    for (path, text) in repository.under(FOLDER) {
        let lines: Vec<&str> = text.lines().collect();
        for public in public(path, text).unwrap_or_default() {
            let Some((file, line)) = line_of(&public.name) else {
                continue;
            };
            found.push(Theorem {
                path: path.to_string(),
                at: public.line,
                file,
                line,
                comment: comment_above(&lines[..public.line - 1]),
                statement: statement(&lines[public.line - 1..], &public.name),
                name: public.name,
            });
        }
    }
    found
}

/// The names that stand in several places, each with its places.
pub fn twice(theorems: &[Theorem]) -> Vec<(&str, String)> {
    let mut places: BTreeMap<&str, Vec<String>> = BTreeMap::new();
    for theorem in theorems {
        let place = format!("{}:{}", theorem.path, theorem.at);
        places.entry(&theorem.name).or_default().push(place);
    }
    places.retain(|_, places| places.len() > 1);
    places
        .into_iter()
        .map(|(name, places)| (name, places.join(", ")))
        .collect()
}

pub fn is_theorem(evidence: &Evidence) -> bool {
    let inside = evidence.path.strip_prefix(FOLDER);
    inside.is_some_and(|rest| rest.starts_with('/')) && line_of(&evidence.name).is_some()
}

/// The file, as an index, and the line that a theorem is named after.
fn line_of(name: &str) -> Option<(usize, usize)> {
    FILES.iter().enumerate().find_map(|(file, (_, prefix))| {
        let place = name.strip_prefix(prefix)?.strip_prefix('_')?;
        let line = place.strip_suffix(|c: char| c.is_ascii_lowercase());
        Some((file, line.unwrap_or(place).parse().ok()?))
    })
}

/// The lines up to what is unfolded for the proof, or to the proof itself.
fn statement(lines: &[&str], name: &str) -> String {
    let goes_on = |line: &&&str| {
        let line = line.trim();
        !line.is_empty() && !line.starts_with("unfolding ") && !line.starts_with(name)
    };
    let lines: Vec<&str> = lines.iter().take_while(goes_on).copied().collect();
    collapsed(&lines.join(" "))
}

fn comment_above(lines: &[&str]) -> String {
    let comments = lines
        .iter()
        .rev()
        .map_while(|line| line.trim().strip_prefix("--"));
    let mut block: Vec<&str> = comments.collect();
    block.reverse();
    collapsed(&block.join(" "))
}
