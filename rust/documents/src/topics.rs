//! A call is found under one topic wherever it stands. The topic is the name of its file at the boundary, `of_TOPIC.rt`;
//! the heading above its declaration in a header and above its row in the document of calls, and the file of its
//! declaration for Rust, of its safe call and of its reference, have the same. Headings come in one order, the document's.
use crate::evidence::Evidence;
use crate::headings::{self, Heading};
use crate::prototypes::Language;
use crate::report::Report;
use crate::repository::Repository;
use crate::roots::CALLS;
use crate::words::words;
use std::collections::BTreeMap;

/// How the file of a topic is named at the boundary.
const OF: &str = "/of_";

/// Where a call is public in the file of its topic, and what comes before its name there.
const FILES: [(&str, &str); 3] = [
    ("rust/joistdenim/src/raw", PREFIX),
    ("rust/joistdenim/src", ""),
    ("rust/reference/src", ""),
];

/// Where the file or folder of its topic names a call; a folder that isn't there isn't looked at.
const CASES: [&str; 2] = ["vectors", "rust/compare/src"];

/// Before the name of every call in C.
pub const PREFIX: &str = "jd_";

pub fn check(repository: &Repository) -> Report {
    let mut report = Report::default();
    let topics = topics(repository, &mut report);
    let listed = headings::of_calls(repository);
    let headers = headings::of_headers(repository);
    for (name, topic) in &topics {
        let mut faults = vec![];
        for (place, headings) in [(CALLS, &listed), (Language::C.folder(), &headers)] {
            faults.extend(misplaced(place, headings, name, topic));
        }
        faults.extend(missing(repository, name, topic));
        report.thing(&format!("{PREFIX}{name}"), faults);
    }
    let order: Vec<&Heading> = listed.iter().filter(|h| !h.calls.is_empty()).collect();
    for heading in &headers {
        report.thing(&heading.place(), out_of_turn(heading, &headers, &order));
    }
    if report.passed == 0 {
        report.fail("no call was found under one topic everywhere".to_string());
    }
    report
}

/// The topic of each call that the boundary exports.
fn topics(repository: &Repository, report: &mut Report) -> BTreeMap<String, String> {
    let mut topics = BTreeMap::new();
    for (path, code) in Language::Rattle.files(repository) {
        let topic = path
            .split_once(OF)
            .and_then(|(_, file)| file.split_once('.'));
        for prototype in Language::Rattle.prototypes(&code).into_iter().flatten() {
            let name = prototype.name.text.trim_start_matches(PREFIX);
            match topic {
                Some((topic, _)) => drop(topics.insert(name.to_string(), topic.to_string())),
                None => report.fail(format!("{path}: {name} is exported by no file of a topic")),
            }
        }
    }
    topics
}

/// Where it stands under another heading, or under none.
fn misplaced(place: &str, headings: &[Heading], name: &str, topic: &str) -> Vec<String> {
    let above: Vec<&Heading> = headings.iter().filter(|h| h.has(name)).collect();
    if above.is_empty() {
        return vec![format!("it stands under no heading in {place}")];
    }
    let others = above.into_iter().filter(|heading| heading.topic != topic);
    let told = |h: &Heading| {
        format!(
            "it stands under {} at {}, and not {topic}",
            h.topic,
            h.place()
        )
    };
    others.map(told).collect()
}

/// The files of the topic that don't have it.
fn missing(repository: &Repository, name: &str, topic: &str) -> Vec<String> {
    let files = FILES.iter().filter_map(|(folder, before)| {
        let path = format!("{folder}/{topic}.rs");
        Evidence::at(&path, &format!("{before}{name}")).fault(repository)
    });
    let is_there = |folder: &str| repository.under(folder).next().is_some();
    let lacks = |folder: &&str| is_there(folder) && !has_case(repository, folder, name, topic);
    let cases = CASES.into_iter().filter(lacks);
    let told = cases.map(|folder| format!("no file of {folder}/{topic} names it"));
    files.chain(told).collect()
}

fn has_case(repository: &Repository, folder: &str, name: &str, topic: &str) -> bool {
    let in_c = format!("{PREFIX}{name}");
    let of_topic = |path: &str| words(&path[folder.len()..]).next() == Some(topic);
    let mut files = repository.under(folder).filter(|(path, _)| of_topic(path));
    files.any(|(_, text)| words(text).any(|word| word == name || word == in_c))
}

/// A heading of a header that is no topic, or stands before one that the document has earlier.
fn out_of_turn(heading: &Heading, headers: &[Heading], order: &[&Heading]) -> Vec<String> {
    let turn = |of: &Heading| order.iter().position(|listed| listed.topic == of.topic);
    let Some(own) = turn(heading) else {
        return vec![format!("{} is no topic of the calls", heading.topic)];
    };
    let here = headers.iter().filter(|h| h.path == heading.path);
    let later = here.skip_while(|h| h.line <= heading.line);
    let earlier = later.filter(|h| turn(h).is_some_and(|turn| turn <= own));
    let told = |h: &Heading| format!("{} comes before {}", heading.topic, h.topic);
    earlier.map(told).collect()
}
