//! The archive's functions are declared three times: by the boundary in Rattle, which exports them, by the headers for
//! C, and for Rust. No compiler sees two of these, and a call by a wrong declaration is undefined behaviour. So each
//! function has the same parameters in the same order in all three, under the same names, and the same result.
use crate::forms::{Fault, Form, Parameter};
use crate::prototypes::{Language, Prototype};
use crate::report::Report;
use crate::repository::Repository;
use std::collections::{BTreeMap, BTreeSet};

const LANGUAGES: [Language; 3] = [Language::Rattle, Language::C, Language::Rust];

/// The boundary's name for the answer, its last parameter; a header's says what is answered.
const ANSWER: &str = "value";

/// The other names that are shorter in the boundary, each with the header's.
const SHORTER: [(&str, &str); 6] = [
    ("a", "pair_a"),
    ("b", "pair_b"),
    ("dest", "dest_pair"),
    ("new", "new_prefix"),
    ("old", "old_prefix"),
    ("rec", "record"),
];

/// A function as one language declares it.
struct Signature<'a> {
    place: String,
    parameters: Vec<Parameter<'a>>,
    result: &'static str,
}

/// A function, or what isn't understood of it.
type Declared<'a> = Result<Signature<'a>, String>;

/// Whether two parameters may have the names that they have; and whether they are the last.
type Alike = fn(&Parameter, &Parameter, bool) -> bool;

pub fn check(repository: &Repository) -> Report {
    let mut report = Report::default();
    let files = LANGUAGES.map(|language| (language, language.files(repository)));
    let all = files
        .each_ref()
        .map(|(language, files)| declared(*language, files, &mut report));
    let names: BTreeSet<&str> = all.iter().flat_map(BTreeMap::keys).copied().collect();
    for name in names {
        report.thing(name, faults(all.each_ref().map(|of| of.get(name))));
    }
    if report.passed == 0 {
        report.fail("no function was found that all three declare alike".to_string());
    }
    report
}

/// The functions of one language's files, by name.
fn declared<'a>(
    language: Language,
    files: &'a [(&str, String)],
    report: &mut Report,
) -> BTreeMap<&'a str, Declared<'a>> {
    let mut found = BTreeMap::new();
    for (path, code) in files {
        for prototype in language.prototypes(code) {
            let fault = match prototype {
                Err(line) => Some((line, "this declaration isn't understood".to_string())),
                Ok(prototype) => {
                    let name = prototype.name.text;
                    let twice = found.insert(name, signature(language, path, &prototype));
                    twice.map(|_| (prototype.name.line, format!("{name} is declared twice")))
                }
            };
            if let Some((line, what)) = fault {
                report.fail(format!("{path}:{line}: {what}"));
            }
        }
    }
    found
}

fn signature<'a>(language: Language, path: &str, prototype: &Prototype<'a>) -> Declared<'a> {
    let line = prototype.name.line;
    let told = |(line, what): Fault| format!("{path}:{line}: {what}");
    let unknown = || told((line, format!("`{}` isn't understood", prototype.result)));
    Ok(Signature {
        place: format!("{path}:{line}"),
        parameters: language.parameters(&prototype.parameters).map_err(told)?,
        result: language.number(prototype.result).ok_or_else(unknown)?,
    })
}

fn faults(found: [Option<&Declared>; 3]) -> Vec<String> {
    let mut faults = vec![];
    for (language, declared) in LANGUAGES.iter().zip(&found) {
        match declared {
            None => faults.push(format!("{} doesn't declare it", language.folder())),
            Some(Err(fault)) => faults.push(fault.clone()),
            Some(Ok(_)) => {}
        }
    }
    if let [Some(Ok(rattle)), Some(Ok(c)), Some(Ok(rust))] = found {
        faults.extend(differences(rattle, c, may_be_shorter));
        faults.extend(differences(c, rust, |c, rust, _| c.name == rust.name));
    }
    faults
}

fn may_be_shorter(rattle: &Parameter, c: &Parameter, is_last: bool) -> bool {
    let is_answer = is_last && matches!(c.form, Form::Answer(_));
    rattle.name == c.name
        || SHORTER.contains(&(rattle.name, c.name))
        || (is_answer && rattle.name == ANSWER)
}

/// Where the second isn't as the first.
fn differences(first: &Signature, second: &Signature, alike: Alike) -> Vec<String> {
    let told = |what: &str, here: String, there: String| {
        let (place, other) = (&second.place, &first.place);
        format!("{place}: {what} is {here}, and not {there}, as at {other}")
    };
    let mut found = vec![];
    if first.result != second.result {
        found.push(told(
            "the result",
            second.result.into(),
            first.result.into(),
        ));
    }
    let [count, wanted] = [second, first].map(|of| of.parameters.len());
    if count != wanted {
        let [count, wanted] = [count, wanted].map(|n| n.to_string());
        found.push(told("the number of parameters", count, wanted));
        return found;
    }
    for (i, (wanted, has)) in first.parameters.iter().zip(&second.parameters).enumerate() {
        if wanted.form != has.form || !alike(wanted, has, i + 1 == count) {
            let what = format!("parameter {}", i + 1);
            found.push(told(&what, has.to_string(), wanted.to_string()));
        }
    }
    found
}
