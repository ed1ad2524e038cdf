//! The headings that calls stand under, in the headers and in the document of calls.
use crate::prototypes::Language;
use crate::repository::Repository;
use crate::roots::CALLS;
use crate::table::heads;
use crate::topics::PREFIX;
use crate::words::words;

/// How a heading begins, in a header and in the document.
const IN_HEADER: &str = "/* ---- ";
const IN_DOCUMENT: &str = "## ";

pub struct Heading<'a> {
    pub path: &'a str,
    pub line: usize,
    pub topic: String,
    /// The names of the calls under it, without what is before them in C.
    pub calls: Vec<String>,
}

impl Heading<'_> {
    pub fn place(&self) -> String {
        format!("{}:{}", self.path, self.line)
    }

    pub fn has(&self, name: &str) -> bool {
        self.calls.iter().any(|call| call == name)
    }
}

pub fn of_headers(repository: &Repository) -> Vec<Heading<'_>> {
    let mut found = vec![];
    for (path, code) in Language::C.files(repository) {
        let text = repository.text(path).unwrap_or("");
        let mut headings = headings(path, text, IN_HEADER);
        for prototype in Language::C.prototypes(&code).into_iter().flatten() {
            add(&mut headings, prototype.name.line, prototype.name.text);
        }
        found.extend(headings);
    }
    found
}

/// The calls of a row are those of its first cell: `crate::name`, and a name in C.
pub fn of_calls(repository: &Repository) -> Vec<Heading<'_>> {
    let text = repository.text(CALLS).unwrap_or("");
    let mut headings = headings(CALLS, text, IN_DOCUMENT);
    for (line, span) in heads(text) {
        match span.rsplit_once("::") {
            Some((_, name)) => add(&mut headings, line, name),
            None if span.starts_with(PREFIX) => add(&mut headings, line, &span),
            None => {}
        }
    }
    headings
}

fn headings<'a>(path: &'a str, text: &str, begins: &str) -> Vec<Heading<'a>> {
    let heading = |(i, line): (usize, &str)| {
        let title = line.strip_prefix(begins)?.split('.').next()?;
        Some(Heading {
            path,
            line: i + 1,
            topic: topic(title),
            calls: vec![],
        })
    };
    text.lines().enumerate().filter_map(heading).collect()
}

/// "Parent and child" is `parent_child`.
fn topic(title: &str) -> String {
    let lower = title.to_lowercase();
    let parts: Vec<&str> = words(&lower).filter(|word| *word != "and").collect();
    parts.join("_")
}

/// A call belongs to the last heading above it.
fn add(headings: &mut [Heading], line: usize, name: &str) {
    let above = headings.iter_mut().rfind(|heading| heading.line < line);
    let name = name.strip_prefix(PREFIX).unwrap_or(name);
    above
        .into_iter()
        .for_each(|h| h.calls.push(name.to_string()));
}
