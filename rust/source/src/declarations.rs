//! The functions, predicates and methods of a Dafny module, with their bodies.

/// Lines that begin and end a body: the source indents the declarations of a module by two.
const BEGIN: &str = "  {";
const END: &str = "  }";

#[derive(Debug, PartialEq)]
pub struct Declaration {
    pub name: String,
    /// The first line, counted from 0, and the one behind the last.
    pub from: usize,
    pub to: usize,
    /// The lines between the braces.
    pub body: String,
}

pub fn declarations(text: &str) -> Result<Vec<Declaration>, String> {
    let lines: Vec<&str> = text.lines().collect();
    let mut found = vec![];
    for (from, line) in lines.iter().enumerate() {
        let Some(name) = name(line) else { continue };
        let place = |wanted, after: usize| {
            let rest = lines[after..].iter();
            let at = rest.take_while(|l| !l.trim().is_empty() || wanted == END);
            at.into_iter().position(|l| *l == wanted).map(|n| after + n)
        };
        let begin = place(BEGIN, from).ok_or(format!("{name} has no body"))?;
        let end = place(END, begin).ok_or(format!("the body of {name} has no end"))?;
        found.push(Declaration {
            name: name.to_string(),
            from,
            to: end + 1,
            body: lines[begin + 1..end].join("\n"),
        });
    }
    Ok(found)
}

/// The name that a line declares.
pub fn name(line: &str) -> Option<&str> {
    let line = line.strip_prefix("  ")?;
    let rest = ["function", "predicate", "method"]
        .iter()
        .find_map(|word| line.strip_prefix(*word))?;
    let mut rest = rest.strip_prefix(' ')?.trim_start();
    rest = rest.strip_prefix("method ").unwrap_or(rest).trim_start();
    if rest.starts_with("{:") {
        rest = rest.split_once('}')?.1.trim_start();
    }
    rest.find(['(', '<']).map(|end| rest[..end].trim_end())
}

#[cfg(test)]
mod tests {
    use super::*;

    const MODULE: &str = "\
module M {
  predicate P(e: E)
  {
    && e.E?
  }

  function {:opaque} F(x: int) : (y: int)
  requires P(x)
  {
    if x == 0 then (
      0
    ) else (
      F(x - 1)
    )
  }

  function method G(): int
  {
    var x := 1;

    x
  }
}
";

    #[test]
    fn a_declaration_has_its_name_and_body() {
        let found = declarations(MODULE).unwrap();
        let names: Vec<&str> = found.iter().map(|d| d.name.as_str()).collect();
        assert_eq!(names, ["P", "F", "G"]);
        assert_eq!(found[0].body, "    && e.E?");
        assert_eq!((found[0].from, found[0].to), (1, 5));
        assert_eq!(found[2].body, "    var x := 1;\n\n    x");
    }

    #[test]
    fn a_declaration_without_a_body_is_an_error() {
        let bare = "module M {\n  predicate P(e: E)\n\n  predicate Q()\n  {\n    true\n  }\n}\n";
        assert_eq!(declarations(bare).unwrap_err(), "P has no body");
        let open = "module M {\n  predicate P(e: E)\n  {\n    true\n";
        assert_eq!(declarations(open).unwrap_err(), "the body of P has no end");
    }

    #[test]
    fn a_line_of_a_body_declares_nothing() {
        assert_eq!(name("    function (x) => x"), None);
        assert_eq!(name("  functional(x)"), None);
        assert_eq!(name("  // function F(x: int)"), None);
        assert_eq!(name("  method {:a 4}  M(x: int)"), Some("M"));
        assert_eq!(name("  function method F<T(==)>(x: T): T"), Some("F"));
    }
}
