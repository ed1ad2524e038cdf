//! Checks the documents, from the root of the repository: `documents contracts` the table of the source's contracts,
//! `documents names` the names in code style and the links, `documents believed` the list of what must be believed; and
//! what they say of the code, `documents requires`: no public function has one. `documents signatures` holds the boundary,
//! the headers and the Rust declarations against each other, `documents topics` the names under which each call is found
//! there, and `documents refusals` what lists refusals, in code and text, against their numbers and turns. `documents
//! layers` holds the drawing of the crates against the list of them. A line for each failure, then 'N passed, M failed';
//! the status is 1 where something failed.
mod believed;
#[cfg(test)]
mod believed_sample;
#[cfg(test)]
mod believed_tests;
mod clauses;
#[cfg(test)]
mod clauses_tests;
mod contracts;
#[cfg(test)]
mod contracts_tests;
mod definitions;
mod evidence;
#[cfg(test)]
mod evidence_tests;
mod exceptions;
mod forms;
mod functions;
mod headings;
mod in_turn;
mod known;
mod layers;
mod links;
mod listings;
#[cfg(test)]
mod listings_tests;
mod names;
#[cfg(test)]
mod names_tests;
mod numbering;
mod places;
mod prototypes;
mod refusals;
mod report;
mod repository;
mod requires;
mod roots;
mod rows;
#[cfg(test)]
mod sample;
mod scope;
mod signatures;
#[cfg(test)]
mod signatures_sample;
#[cfg(test)]
mod signatures_tests;
mod source;
#[cfg(test)]
mod source_tests;
mod table;
#[cfg(test)]
mod theorem_tests;
mod theorems;
mod topics;
#[cfg(test)]
mod topics_tests;
mod words;

use exceptions::EXCEPTIONS;
use places::PLACES;
use repository::Repository;
use std::path::Path;
use std::process::ExitCode;

fn main() -> ExitCode {
    let asked = std::env::args().nth(1).unwrap_or_default();
    let repository = match Repository::read(Path::new(".")) {
        Ok(repository) => repository,
        Err(error) => {
            eprintln!("the repository can't be read: {error}");
            return ExitCode::from(2);
        }
    };
    let report = match asked.as_str() {
        "contracts" => contracts::check(&repository),
        "names" => names::check(&repository, EXCEPTIONS).and(links::check(&repository)),
        "believed" => believed::check(&repository),
        "requires" => requires::check(&repository),
        "signatures" => signatures::check(&repository),
        "topics" => topics::check(&repository),
        "layers" => layers::check(&repository),
        "refusals" => listings::check(&repository, PLACES).and(in_turn::check(&repository)),
        _ => {
            eprintln!("documents contracts | names | believed | requires | signatures | topics | layers | refusals");
            return ExitCode::from(2);
        }
    };
    report.print(&asked);
    ExitCode::from(u8::from(!report.failures.is_empty()))
}
