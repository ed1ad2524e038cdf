//! What is asked to be believed: the contracts of the calls and of the boundary's functions, and the claims.
use crate::definitions::Definitions;
use crate::evidence::Evidence;
use crate::functions::{functions, origin, Function};
use crate::report::Report;
use crate::repository::Repository;
use crate::scope::Scope;
use crate::table::heads;
use std::collections::BTreeMap;

/// The document that lists the calls.
pub const CALLS: &str = "docs/CALLS.md";
const BOUNDARY: &str = "crates/joistdenim/src";
const LAWS: &str = "crates/model/proofs";

/// Each definition that is cited, and by what.
pub type Roots = BTreeMap<Evidence, String>;

/// The definitions that the contracts of calls and boundary cite. Each function is one thing that is looked at.
pub fn of_contracts(
    repository: &Repository,
    definitions: &Definitions,
    report: &mut Report,
) -> Roots {
    let mut roots = Roots::new();
    let mut look = |path: &str, function: &Function, report: &mut Report| {
        let texts = function.clauses.iter().map(|clause| clause.text.as_str());
        let cited = definitions.cited(path, &texts.collect::<Vec<_>>().join("\n"));
        let place = format!("{path}:{}: {}", function.line, function.name);
        let fault = || "its contract cites no definition".to_string();
        report.thing(&place, cited.is_empty().then(fault).into_iter().collect());
        roots.extend(cited.into_iter().map(|cited| (cited, place.clone())));
    };
    for (path, text) in repository.under(BOUNDARY) {
        for function in functions(text) {
            look(path, &function, report);
        }
    }
    for (at, call) in calls(repository.text(CALLS).unwrap_or_default()) {
        match code_of(repository, &call) {
            Some((path, function)) => look(path, &function, report),
            None => report.fail(format!(
                "{CALLS}:{at}: {call} is no public function of a crate"
            )),
        }
    }
    roots
}

/// The calls of the document with their lines: `crate::name` at the head of a table's row.
fn calls(document: &str) -> Vec<(usize, String)> {
    let mut found = heads(document);
    found.retain(|(_, span)| span.contains("::"));
    found
}

/// The file and the function of a call: in its crate, or in the one from which its crate hands it on.
fn code_of<'a>(repository: &'a Repository, call: &str) -> Option<(&'a str, Function)> {
    let (name, _) = call.split_once("::")?;
    let (_, wanted) = call.rsplit_once("::")?;
    let folder = format!("crates/{name}/src/");
    let files = || {
        let all = repository.files();
        all.filter(|(path, _)| path.starts_with(&folder))
    };
    let found = files().find_map(|(path, text)| {
        let found = functions(text).into_iter().find(|f| f.name == wanted);
        found.map(|function| (path, function))
    });
    found.or_else(|| {
        let from = files().find_map(|(_, text)| origin(text, wanted))?;
        code_of(repository, &format!("{from}::{wanted}"))
    })
}

/// The definitions that a law of the model states as they are: its whole statement is the name of one.
pub fn claims(repository: &Repository, definitions: &Definitions) -> Roots {
    let mut claims = Roots::new();
    for (path, text) in repository.under(LAWS) {
        let scope = Scope::of(repository, text);
        let lines: Vec<&str> = text.lines().collect();
        for (i, line) in lines.iter().enumerate() {
            let stated = line
                .strip_prefix("pub ")
                .and_then(|law| law.split_once(" : "));
            let goes_on = lines.get(i + 1).is_some_and(|next| next.starts_with(' '));
            let Some((law, claim)) = stated.filter(|_| !goes_on) else {
                continue;
            };
            if let Some(claim) = scope.get(claim) {
                let place = format!("{path}:{}: {law}", i + 1);
                claims.insert(definitions.owner(claim), place);
            }
        }
    }
    claims
}

#[cfg(test)]
mod tests {
    use super::code_of;
    use crate::repository::Repository;

    const FILES: [(&str, &str); 3] = [
        (
            "crates/faces/src/lib.rt",
            "mod own;\n\npub use keys::{\n    key, spare,\n};\npub use own::here;\n",
        ),
        (
            "crates/faces/src/own.rt",
            "pub fn here(a: u8) -> u8 {\n    a\n}\n",
        ),
        (
            "crates/keys/src/lib.rt",
            "pub fn key(a: u8) -> u8 {\n    a\n}\n",
        ),
    ];

    #[test]
    fn a_call_is_found_where_it_is_handed_on_from() {
        let repository = Repository::of(&FILES);
        let file = |call: &str| code_of(&repository, call).map(|(path, _)| path);
        assert_eq!(file("keys::key"), Some("crates/keys/src/lib.rt"));
        assert_eq!(file("faces::key"), Some("crates/keys/src/lib.rt"));
        assert_eq!(file("faces::here"), Some("crates/faces/src/own.rt"));
        assert_eq!(file("faces::spare"), None);
        assert_eq!(file("keys::here"), None);
    }
}
