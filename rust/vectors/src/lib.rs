//! The worked cases of every call, from the files of the folder `vectors`. Its README says how they
//! are written.
#![forbid(unsafe_code)]

mod expression;
mod line;
#[cfg(test)]
mod tests;

use std::fs;
use std::path::{Path, PathBuf};

/// One run of a call, with what comes of it.
#[derive(Clone, Debug, PartialEq, Eq)]
pub struct Case {
    /// The line of its file.
    pub line: usize,
    pub name: String,
    /// The C function's name without its prefix.
    pub call: String,
    pub slices: Vec<Vec<u8>>,
    /// A place, a slot or a length, where the call takes one.
    pub number: Option<u64>,
    /// The length of each destination.
    pub rooms: Vec<usize>,
    pub outcome: Outcome,
}

#[derive(Clone, Debug, PartialEq, Eq)]
pub enum Outcome {
    /// Its number. Nothing is written.
    Refused(u32),
    /// What is answered, and what is written to the head of each destination.
    Taken {
        answers: Vec<i64>,
        written: Vec<Vec<u8>>,
    },
}

fn folder() -> PathBuf {
    Path::new(env!("CARGO_MANIFEST_DIR")).join("../../vectors")
}

/// The names of the files, without `.vectors`, in order.
pub fn topics() -> Vec<String> {
    let files = fs::read_dir(folder()).expect("the folder of vectors");
    let paths = files.map(|file| file.expect("a file").path());
    let vectors = paths.filter(|path| path.extension().is_some_and(|end| end == "vectors"));
    let name = |path: PathBuf| path.file_stem()?.to_str().map(str::to_string);
    let mut topics: Vec<String> = vectors.filter_map(name).collect();
    topics.sort_unstable();
    topics
}

/// The cases of a topic, in the order of its file.
pub fn cases(topic: &str) -> Vec<Case> {
    let path = folder().join(format!("{topic}.vectors"));
    let text = fs::read_to_string(&path).expect("a file of vectors");
    match line::read(&text) {
        Ok(cases) => cases,
        Err((line, fault)) => panic!("{}:{line}: {fault}", path.display()),
    }
}
