//! The lines of a file: definitions, calls and cases.
use crate::expression::Names;
use crate::{Case, Outcome};

type Fault = String;

/// What was read so far.
#[derive(Default)]
struct Reader {
    names: Names,
    calls: Vec<String>,
    cases: Vec<Case>,
}

/// All cases, or the first line at fault and what is wrong there.
pub fn read(text: &str) -> Result<Vec<Case>, (usize, Fault)> {
    let mut reader = Reader::default();
    for (number, line) in whole_lines(text) {
        let read = reader.line(number, &line);
        read.map_err(|fault| (number, fault))?;
    }
    Ok(reader.cases)
}

/// A line that begins with a blank goes on with the line before.
fn whole_lines(text: &str) -> Vec<(usize, String)> {
    let mut lines: Vec<(usize, String)> = vec![];
    for (number, line) in (1..).zip(text.lines()) {
        match lines.last_mut() {
            Some((_, whole)) if line.starts_with(' ') => *whole += line,
            _ => lines.push((number, line.to_string())),
        }
    }
    lines
}

impl Reader {
    fn line(&mut self, number: usize, line: &str) -> Result<(), Fault> {
        if line.is_empty() || line.starts_with('#') {
            return Ok(());
        }
        if let Some(definition) = line.strip_prefix("let ") {
            let definition = definition.replace(' ', "");
            let (name, value) = definition.split_once('=').ok_or("no =")?;
            return self.names.define(name, value);
        }
        if let Some(calls) = line.strip_prefix("call ") {
            self.calls = calls.split_whitespace().map(str::to_string).collect();
            return Ok(());
        }
        let (name, text) = line.split_once(" : ").ok_or("a line of no sort")?;
        if self.calls.is_empty() {
            return Err("no call above it".to_string());
        }
        let runs = self.runs(number, name, text)?;
        self.cases.extend(runs);
        Ok(())
    }

    /// A case for each of the calls and of the rooms.
    fn runs(&self, line: usize, name: &str, text: &str) -> Result<Vec<Case>, Fault> {
        let mut words = text.split_whitespace();
        let (mut slices, mut numbers, mut rooms) = (vec![], vec![], vec![]);
        let outcome = loop {
            match words.next().ok_or("a case without an end")? {
                "refused" => break refused(words)?,
                "taken" | "answers" => break self.taken(words)?,
                word => match word.as_bytes()[0] {
                    b'@' => numbers = read_numbers(&word[1..])?,
                    b'[' => rooms.push(room(word)?),
                    _ => slices.push(self.names.bytes(word)?),
                },
            }
        };
        let case = |call: &String, (number, rooms)| Case {
            line,
            name: name.to_string(),
            call: call.clone(),
            slices: slices.clone(),
            number,
            rooms,
            outcome: outcome.clone(),
        };
        let tries = tries(&numbers, &rooms);
        let runs = self.calls.iter().flat_map(|call| {
            let case = &case;
            tries.iter().map(move |lent| case(call, lent.clone()))
        });
        Ok(runs.collect())
    }

    fn taken<'a>(&self, words: impl Iterator<Item = &'a str>) -> Result<Outcome, Fault> {
        let (mut answers, mut written) = (vec![], vec![]);
        let mut writes = false;
        for word in words {
            match word {
                "writes" => writes = true,
                _ if writes => written.push(self.names.bytes(word)?),
                _ => answers.push(parsed(word)?),
            }
        }
        Ok(Outcome::Taken { answers, written })
    }
}

fn refused<'a>(mut words: impl Iterator<Item = &'a str>) -> Result<Outcome, Fault> {
    match (words.next(), words.next()) {
        (Some(number), None) => parsed(number).map(Outcome::Refused),
        _ => Err("not one number of a refusal".to_string()),
    }
}

/// The number and the rooms of each run. No call takes a number and has a destination.
fn tries(numbers: &[u64], rooms: &[Vec<usize>]) -> Vec<(Option<u64>, Vec<usize>)> {
    let numbers = numbers.iter().map(|number| (Some(*number), vec![]));
    let rooms = rooms.iter().map(|rooms| (None, rooms.clone()));
    let tries: Vec<_> = numbers.chain(rooms).collect();
    match tries.is_empty() {
        true => vec![(None, vec![])],
        false => tries,
    }
}

/// Numbers parted by commas; 0..3 are four.
fn read_numbers(word: &str) -> Result<Vec<u64>, Fault> {
    let mut numbers = vec![];
    for part in word.split(',') {
        let (first, last) = part.split_once("..").unwrap_or((part, part));
        numbers.extend(parsed::<u64>(first)?..=parsed(last)?);
    }
    Ok(numbers)
}

/// The lengths in brackets, parted by commas.
fn room(word: &str) -> Result<Vec<usize>, Fault> {
    let inside = word
        .strip_prefix('[')
        .and_then(|word| word.strip_suffix(']'));
    let inside = inside.ok_or("brackets that don't close")?;
    inside.split(',').map(parsed).collect()
}

fn parsed<N: std::str::FromStr>(word: &str) -> Result<N, Fault> {
    word.parse().map_err(|_| format!("no number: {word}"))
}
