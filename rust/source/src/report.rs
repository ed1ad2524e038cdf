//! What `source` does and prints, from the root of the repository.
use crate::calls::Calls;
use crate::comparison::{Comparison, Tally};
use crate::declarations::{declarations, name};
use crate::functions::{Function, FUNCTIONS};
use crate::program::{program as made, same_bodies, FILES, LEFT_OUT, NOT_COMPILED};
use crate::wrong::{read as read_wrong, Wrong};
use std::fs;
use std::io::BufRead;
use std::path::Path;

const SOURCE: &str = "docs/src/lib/Buckets";
const STAND_INS: &str = "StandIns.dfy";
const WRONG: &str = "dafny/wrong_bodies.txt";

/// Whether all was as it should be; or why nothing could be looked at.
type Done = Result<bool, String>;

fn read(path: &str) -> Result<String, String> {
    fs::read_to_string(path).map_err(|e| format!("{path}: {e}"))
}

fn write(dir: &str, file: &str, text: &str) -> Result<(), String> {
    let path = Path::new(dir).join(file);
    fs::write(&path, text).map_err(|e| format!("{}: {e}", path.display()))
}

/// A file that the program is made of, as the repository has it.
fn original(file: &str) -> Result<String, String> {
    match file {
        STAND_INS => read(&format!("dafny/{file}")),
        _ => read(&format!("{SOURCE}/{file}")),
    }
}

/// Writes the program and tells each line that isn't the source's. Then reads it again, and compares
/// the bodies.
pub fn program(dir: &str) -> Done {
    write(dir, STAND_INS, &original(STAND_INS)?)?;
    let mut same = true;
    for file in FILES {
        let source = original(file)?;
        let (text, changes) = made(&source)?;
        write(dir, file, &text)?;
        for change in changes {
            println!("{file}:{}", change.line);
            println!("- {}", change.old);
            if let Some(new) = change.new {
                println!("+ {new}");
            }
        }
        match same_bodies(&source, &read(&format!("{dir}/{file}"))?) {
            Ok(count) => println!("{file}: {count} bodies, each as in the source"),
            Err(fault) => {
                println!("{file}: {fault}");
                same = false;
            }
        }
    }
    Ok(same)
}

fn wrong(number: &str) -> Result<Wrong, String> {
    let list = read_wrong(&read(WRONG)?)?;
    let place = number.parse::<usize>().ok();
    let place = place.and_then(|number| number.checked_sub(1));
    let found = list.into_iter().nth(place.unwrap_or(usize::MAX));
    found.ok_or(format!("{WRONG} has no {number}"))
}

/// A file of the program with a wrong body. That the body isn't the source's must be seen too.
fn with_wrong(wrong: &Wrong) -> Result<String, String> {
    let source = original(&wrong.file)?;
    let text = wrong.applied(&source)?;
    if wrong.file == STAND_INS {
        return Ok(text);
    }
    let (text, _) = made(&text)?;
    match same_bodies(&source, &text) {
        Err(_) => Ok(text),
        Ok(_) => Err(format!(
            "the body of {} is said to be the same",
            wrong.function
        )),
    }
}

pub fn wrong_program(dir: &str, number: &str) -> Done {
    let wrong = wrong(number)?;
    for file in FILES {
        write(dir, file, &made(&original(file)?)?.0)?;
    }
    write(dir, STAND_INS, &original(STAND_INS)?)?;
    write(dir, &wrong.file, &with_wrong(&wrong)?)?;
    Ok(true)
}

/// A row for each wrong body, and then the functions that have none.
pub fn wrong_bodies() -> Done {
    let list = read_wrong(&read(WRONG)?)?;
    for wrong in &list {
        with_wrong(wrong)?;
        println!("| {} | {} |", wrong.function, wrong.words);
    }
    let mut all = true;
    for name in compiled()?.into_iter().chain(stand_ins()?) {
        if !list.iter().any(|wrong| wrong.function == name) {
            println!("{name} has no wrong body");
            all = false;
        }
    }
    Ok(all)
}

/// The functions and methods that the program has from the source.
fn compiled() -> Result<Vec<String>, String> {
    let mut names = vec![];
    for file in FILES {
        let all = declarations(&original(file)?)?.into_iter().map(|d| d.name);
        names.extend(all.filter(|n| n != LEFT_OUT && !NOT_COMPILED.contains(&n.as_str())));
    }
    Ok(names)
}

/// The functions of the stand-ins that are compiled, each with its module before it.
fn stand_ins() -> Result<Vec<String>, String> {
    let mut names = vec![];
    let mut module = String::new();
    for line in original(STAND_INS)?.lines() {
        if let Some(begun) = line.strip_prefix("module ") {
            module = begun.trim_end_matches(" {").to_string();
        }
        let compiled = line.contains(" method ");
        if let Some(name) = name(line).filter(|_| compiled) {
            names.push(format!("{module}.{name}"));
        }
    }
    Ok(names)
}

/// A row for each function, the differences, and the count.
pub fn compare(lines: impl BufRead) -> Done {
    let mut comparison = Comparison::new(Calls::read(&read("docs/CALLS.md")?));
    for line in lines.lines() {
        comparison.take(&line.map_err(|e| e.to_string())?)?;
    }
    println!("| function | asked by | cases | answered | refused |");
    println!("|---|---|---|---|---|");
    for function in FUNCTIONS {
        if let Some(tally) = comparison.tallies.get(function.name) {
            println!("{}", row(function.name, function.call, tally));
        }
    }
    for difference in &comparison.differences {
        println!("{difference}");
    }
    let mut all = true;
    for name in compiled()? {
        if !comparison.tallies.contains_key(name.as_str()) {
            println!("{name} was not compared");
            all = false;
        }
    }
    let (cases, differing) = (comparison.cases(), comparison.differing());
    if differing > 0 {
        println!("differing: {}", functions_that_differ(&comparison));
    }
    println!("{cases} cases, {differing} differences");
    Ok(all && cases > 0 && differing == 0)
}

/// The first of them with how many cases each, in the order of the files.
fn functions_that_differ(comparison: &Comparison) -> String {
    const TOLD: usize = 3;
    let told = |function: &Function| {
        let tally = comparison.tallies.get(function.name)?;
        (tally.differences > 0).then(|| format!("{} {}", function.name, tally.differences))
    };
    let mut told: Vec<String> = FUNCTIONS.iter().filter_map(told).collect();
    let more = told.len().saturating_sub(TOLD);
    told.truncate(TOLD);
    match more {
        0 => told.join(", "),
        more => format!("{} and {more} more", told.join(", ")),
    }
}

fn row(name: &str, call: &str, tally: &Tally) -> String {
    let numbers: Vec<String> = tally.refusals.iter().map(u32::to_string).collect();
    let refused = match numbers.join(", ") {
        none if none.is_empty() => "0".to_string(),
        numbers => format!("{} ({numbers})", tally.refused),
    };
    let (cases, answered) = (tally.answered + tally.refused, tally.answered);
    format!("| {name} | `{call}` | {cases} | {answered} | {refused} |")
}
