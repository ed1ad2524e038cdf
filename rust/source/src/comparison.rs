//! The lines that the program printed, one after the other, and whether the archive agrees.
use crate::calls::Calls;
use crate::functions::{Function, FUNCTIONS};
use crate::inputs::Inputs;
use joistdenim::MAX_LEN;
use std::collections::{BTreeMap, BTreeSet};

/// How often a function was asked.
#[derive(Default)]
pub struct Tally {
    pub answered: usize,
    pub refused: usize,
    pub refusals: BTreeSet<u32>,
    pub differences: usize,
}

pub struct Comparison {
    calls: Calls,
    inputs: Inputs,
    /// The lines that were taken.
    lines: usize,
    pub tallies: BTreeMap<&'static str, Tally>,
    /// The first ones, in words.
    pub differences: Vec<String>,
}

/// How many differences are told.
const TOLD: usize = 20;

/// What the source says, or the refusal that is owed.
type Expected = Result<String, u32>;

impl Comparison {
    pub fn new(calls: Calls) -> Self {
        Comparison {
            calls,
            inputs: Inputs::default(),
            lines: 0,
            tallies: BTreeMap::new(),
            differences: vec![],
        }
    }

    /// A line is an input, or "=", a function, a number and the result.
    pub fn take(&mut self, line: &str) -> Result<(), String> {
        self.lines += 1;
        let Some(result) = line.strip_prefix("= ") else {
            let (name, text) = line.split_once(' ').unwrap_or((line, ""));
            return self.inputs.take(name, text);
        };
        let mut words = result.split_whitespace();
        let name = words.next().unwrap_or_default();
        let cause = words.next().and_then(|word| word.parse().ok());
        let cause: u32 = cause.ok_or(format!("no number: {line}"))?;
        let function = FUNCTIONS.iter().find(|f| f.name == name);
        let function = function.ok_or(format!("no such function: {line}"))?;
        let said: Vec<&str> = words.collect();
        self.compare(function, expected(name, cause, &said));
        Ok(())
    }

    fn compare(&mut self, function: &'static Function, expected: Expected) {
        let answer = (function.answer)(&self.inputs);
        let answer = answer.map_err(|refusal| refusal.number());
        let answer = answer.map(|text| spaced(&text.split_whitespace().collect::<Vec<_>>()));
        let listed = expected
            .as_ref()
            .err()
            .is_none_or(|number| self.calls.has(function.call, *number));
        let tally = self.tallies.entry(function.name).or_default();
        match &expected {
            Ok(_) => tally.answered += 1,
            Err(number) => {
                tally.refused += 1;
                tally.refusals.insert(*number);
            }
        }
        if answer == expected && listed {
            return;
        }
        tally.differences += 1;
        if self.differences.len() < TOLD {
            let (line, name, call) = (self.lines, function.name, function.call);
            let unlisted = if listed { "" } else { ", not in docs/CALLS.md" };
            let (source, archive) = (shown(&expected), shown(&answer));
            let told = format!("{source} by the source{unlisted}, {archive} by {call}");
            self.differences
                .push(format!("line {line}: {name}: {told}"));
        }
    }

    pub fn cases(&self) -> usize {
        let cases = self.tallies.values().map(|t| t.answered + t.refused);
        cases.sum()
    }

    pub fn differing(&self) -> usize {
        self.tallies.values().map(|t| t.differences).sum()
    }
}

fn spaced(words: &[&str]) -> String {
    words.join(" ")
}

fn shown(answer: &Expected) -> String {
    match answer {
        Ok(text) => format!("\"{text}\""),
        Err(number) => format!("refusal {number}"),
    }
}

/// Questions without a `requires`: where the cause is a no, the call refuses.
const QUESTIONS: [&str; 3] = ["WFPivots", "WFEdges", "ContainsAllKeys"];

/// The number of a cause comes first; 8, of a produced key that is too long, only before 9. A question
/// that the source says yes to has no cause, whatever the program takes for one.
fn expected(name: &str, cause: u32, said: &[&str]) -> Expected {
    let too_long = said.iter().any(|word| word.len() > 2 * MAX_LEN);
    match (cause, said) {
        (_, ["yes"]) if QUESTIONS.contains(&name) => Ok(spaced(said)),
        (0 | 9, _) if too_long => Err(8),
        (0, _) => Ok(spaced(said)),
        (number, _) => Err(number),
    }
}

#[cfg(test)]
mod tests {
    use super::*;

    fn compared(lines: &str) -> Comparison {
        let calls = Calls::read(include_str!("../../../docs/CALLS.md"));
        let mut comparison = Comparison::new(calls);
        for line in lines.lines() {
            comparison.take(line).unwrap();
        }
        comparison
    }

    const T: &str = "pt 4130 4135 42\net 43 -\nkey 4131\n";

    #[test]
    fn what_agrees_is_counted() {
        let lines = format!("{T}= Route 0 0\n= TranslateKey 0 4331\nkey 42\n= Route 5\n");
        let comparison = compared(&lines);
        assert_eq!((comparison.cases(), comparison.differing()), (3, 0));
        let route = &comparison.tallies["Route"];
        assert_eq!((route.answered, route.refused), (1, 1));
        assert!(route.refusals.contains(&5));
    }

    #[test]
    fn what_differs_is_told() {
        for (line, told) in [
            (
                "= Route 0 1",
                "\"1\" by the source, \"0\" by routing::route",
            ),
            (
                "= Route 5",
                "refusal 5 by the source, \"0\" by routing::route",
            ),
            (
                "= TranslateKey 0 4330",
                "\"4330\" by the source, \"4331\" by translation::translate_key",
            ),
            (
                "= BoundedKey 5",
                "refusal 5 by the source, not in docs/CALLS.md, \"yes\" by tables::bounded_key",
            ),
        ] {
            let comparison = compared(&format!("{T}{line}\n"));
            assert_eq!(comparison.differing(), 1);
            let name = line.split(' ').nth(1).unwrap();
            assert_eq!(comparison.differences, [format!("line 4: {name}: {told}")]);
        }
    }

    #[test]
    fn a_produced_key_past_the_limit_is_8() {
        let long = "41".repeat(MAX_LEN + 1);
        let said = [long.as_str()];
        assert_eq!(expected("TranslateKey", 0, &said), Err(8));
        assert_eq!(expected("TranslatePivots", 9, &said), Err(8));
        assert_eq!(expected("TranslatePivots", 7, &said), Err(7));
        assert_eq!(expected("TranslatePivots", 9, &["41"]), Err(9));
        let limit = "41".repeat(MAX_LEN);
        assert_eq!(expected("TranslateKey", 0, &[&limit]), Ok(limit.clone()));
    }

    #[test]
    fn a_question_is_what_the_source_says() {
        for name in QUESTIONS {
            assert_eq!(expected(name, 0, &["yes"]), Ok("yes".to_string()));
            assert_eq!(expected(name, 3, &["yes"]), Ok("yes".to_string()));
            assert_eq!(expected(name, 0, &["no"]), Ok("no".to_string()));
            assert_eq!(expected(name, 3, &["no"]), Err(3));
            assert_eq!(expected(name, 1, &[]), Err(1));
        }
        assert_eq!(expected("BoundedKey", 3, &["yes"]), Err(3));
    }

    #[test]
    fn a_line_that_says_nothing_is_an_error() {
        let mut comparison = compared("");
        for line in ["= Route", "= Unheard 0 1", "=Route 0 1", "pivots 41 42", ""] {
            assert!(comparison.take(line).is_err());
        }
    }
}
