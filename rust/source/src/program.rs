//! A file of the source as a program: `include` lines and what can't be compiled are taken out, and
//! functions that can be are compiled. Lines keep their numbers.
use crate::declarations::{declarations, name};

/// Of the source's folder.
pub const FILES: [&str; 2] = ["BoundedPivotsLib.i.dfy", "TranslationLib.i.dfy"];

/// The first three quantify over all keys, or are a set of them; the last reads a ghost field, and
/// predicates without a body. Clauses alone use them.
pub const NOT_COMPILED: [&str; 4] = [
    "PivotTableBucketKeySet",
    "TranslationPreserved",
    "AllKeysInBetweenHasPrefix",
    "WFTBucket",
];

/// Its body is a sequence by a function of the place, which Dafny 2.3.0 doesn't know.
pub const LEFT_OUT: &str = "KeysToElements";

/// A line that is changed, by its number from 1 on; without a text it is taken out.
#[derive(Debug, PartialEq)]
pub struct Change {
    pub line: usize,
    pub old: String,
    pub new: Option<String>,
}

pub fn program(source: &str) -> Result<(String, Vec<Change>), String> {
    let left_out = declarations(source)?
        .into_iter()
        .find(|d| d.name == LEFT_OUT)
        .map_or(0..0, |d| d.from..d.to);
    let mut text = String::new();
    let mut changes = vec![];
    for (at, old) in source.lines().enumerate() {
        let new = if left_out.contains(&at) || old.starts_with("include ") {
            None
        } else {
            Some(compiled(old))
        };
        text.push_str(new.as_deref().unwrap_or(""));
        text.push('\n');
        if new.as_deref() != Some(old) {
            let (line, old) = (at + 1, old.to_string());
            changes.push(Change { line, old, new });
        }
    }
    Ok((text, changes))
}

/// With `method` behind `function` or `predicate`, where it can be compiled.
fn compiled(line: &str) -> String {
    let can = name(line).is_some_and(|name| !NOT_COMPILED.contains(&name));
    for word in ["  function ", "  predicate "] {
        match line.strip_prefix(word) {
            Some(rest) if can && !rest.starts_with("method ") => {
                return format!("{word}method {rest}");
            }
            _ => {}
        }
    }
    line.to_string()
}

/// How many bodies a program has, all of them the source's; or what differs.
pub fn same_bodies(source: &str, program: &str) -> Result<usize, String> {
    let (old, new) = (declarations(source)?, declarations(program)?);
    let kept: Vec<_> = old.iter().filter(|d| d.name != LEFT_OUT).collect();
    if kept.len() != new.len() {
        return Err(format!("{} bodies of {}", new.len(), kept.len()));
    }
    for (old, new) in kept.iter().zip(&new) {
        if old.name != new.name || old.body != new.body {
            return Err(format!("the body of {} isn't the source's", old.name));
        }
    }
    Ok(kept.len())
}

#[cfg(test)]
mod tests {
    use super::*;

    const SOURCE: &str = "\
include \"a.dfy\"
module M {
  function KeysToElements(k: K): (e: E)
  ensures |k| == |e|
  {
    seq (|k|, i => k[i])
  }

  predicate TranslationPreserved(p: P)
  {
    forall key :: In(p, key)
  }

  function  {:opaque} F(x: int) : int
  {
    x
  }

  method ComputeF(x: int) returns (y: int)
  {
    y := x;
  }

  function method G(): int
  {
    1
  }
}
";

    #[test]
    fn each_changed_line_is_told() {
        let (made, changes) = program(SOURCE).unwrap();
        let told: Vec<(usize, Option<&str>)> =
            changes.iter().map(|c| (c.line, c.new.as_deref())).collect();
        let mut wanted = vec![(1, None)];
        wanted.extend((3..8).map(|line| (line, None)));
        wanted.push((14, Some("  function method  {:opaque} F(x: int) : int")));
        assert_eq!(told, wanted);
        assert_eq!(changes[0].old, "include \"a.dfy\"");
        let changed: Vec<usize> = made
            .lines()
            .zip(SOURCE.lines())
            .enumerate()
            .filter_map(|(at, (new, old))| (new != old).then_some(at + 1))
            .collect();
        let lines: Vec<usize> = wanted.iter().map(|(line, _)| *line).collect();
        assert_eq!(changed, lines);
    }

    #[test]
    fn a_body_that_differs_is_seen() {
        let (made, _) = program(SOURCE).unwrap();
        assert_eq!(same_bodies(SOURCE, &made), Ok(4));
        for (old, new) in [("    y := x;", "    y := 0;"), ("    x\n", "    x \n")] {
            let wrong = made.replace(old, new);
            assert!(same_bodies(SOURCE, &wrong).unwrap_err().contains("F"));
        }
        let fewer = made.replace("  function method G()", "  lemma G()");
        assert_eq!(same_bodies(SOURCE, &fewer).unwrap_err(), "3 bodies of 4");
        let renamed = made.replace("G()", "H()");
        assert!(same_bodies(SOURCE, &renamed).unwrap_err().contains("G"));
    }
}
