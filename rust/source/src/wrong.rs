//! Bodies that are changed to something wrong, one at a time, to see that it is seen.
use crate::declarations::name;

/// In a function of a file, a text for another.
#[derive(Debug, PartialEq)]
pub struct Wrong {
    pub file: String,
    /// With its module before it, where the file has several.
    pub function: String,
    /// What is wrong with it.
    pub words: String,
    pub old: String,
    pub new: String,
}

/// Three lines for each: file, function and words; "- " and the text; "+ " and what stands in its
/// place. Lines that are empty or begin with "#" are passed over.
pub fn read(text: &str) -> Result<Vec<Wrong>, String> {
    let told = |line: &&str| !line.is_empty() && !line.starts_with('#');
    let lines: Vec<&str> = text.lines().filter(told).collect();
    lines.chunks(3).map(of_lines).collect()
}

fn of_lines(lines: &[&str]) -> Result<Wrong, String> {
    let wrong = || -> Option<Wrong> {
        let [place, old, new] = lines else {
            return None;
        };
        let (place, words) = place.split_once(": ")?;
        let (file, function) = place.split_once(' ')?;
        Some(Wrong {
            file: file.to_string(),
            function: function.to_string(),
            words: words.to_string(),
            old: old.strip_prefix("- ")?.to_string(),
            new: new.strip_prefix("+ ")?.to_string(),
        })
    };
    wrong().ok_or(format!("no wrong body: {}", lines.join(" / ")))
}

impl Wrong {
    /// The file with it; the text must stand in the function exactly once.
    pub fn applied(&self, text: &str) -> Result<String, String> {
        let error = |fault: &str| Err(format!("{} {}: {fault}", self.file, self.function));
        let Some((from, to)) = self.place(text) else {
            return error("no such function");
        };
        let function = &text[from..to];
        match function.matches(self.old.as_str()).count() {
            1 => {
                let function = function.replace(&self.old, &self.new);
                Ok([&text[..from], &function, &text[to..]].concat())
            }
            count => error(&format!("{count} times {}", self.old)),
        }
    }

    /// Where the function begins, behind the line that names it, and ends.
    fn place(&self, text: &str) -> Option<(usize, usize)> {
        let (module, function) = match self.function.split_once('.') {
            Some((module, function)) => (text.find(&format!("module {module} {{\n"))?, function),
            None => (0, self.function.as_str()),
        };
        let mut from = module;
        let mut lines = text[module..].split_inclusive('\n');
        lines.find(|line| {
            from += line.len();
            name(line) == Some(function)
        })?;
        Some((from, from + text[from..].find("\n  }\n")?))
    }
}

#[cfg(test)]
mod tests {
    use super::*;

    const MODULES: &str = "\
module M {
  function F(x: int): int
  {
    x + 1
  }

  function G(x: int): int
  {
    x + x
  }
}

module N {
  function F(x: int): int
  {
    x + 1
  }
}
";

    fn applied(wrong: &str) -> Result<String, String> {
        read(wrong).unwrap()[0].applied(MODULES)
    }

    #[test]
    fn a_wrong_body_is_applied_to_its_function() {
        let list =
            read("# of M\n\nM.dfy F: two more\n- x + 1\n+ x + 2\n\nM.dfy G: y\n- x +\n+ y\n");
        assert_eq!(list.unwrap().len(), 2);
        let (first, second) = MODULES.split_at(MODULES.find("module N").unwrap());
        let wrong = applied("M.dfy F: two more\n- x + 1\n+ x + 2\n").unwrap();
        assert_eq!(wrong, first.replace("x + 1", "x + 2") + second);
        let wrong = applied("M.dfy N.F: two more\n- x + 1\n+ x + 2\n").unwrap();
        assert_eq!(wrong, first.to_string() + &second.replace("x + 1", "x + 2"));
    }

    #[test]
    fn what_is_not_there_exactly_once_is_an_error() {
        for (wrong, fault) in [
            ("M.dfy H: h\n- x\n+ y\n", "M.dfy H: no such function"),
            ("M.dfy O.F: f\n- x\n+ y\n", "M.dfy O.F: no such function"),
            ("M.dfy F: f\n- x + x\n+ y\n", "M.dfy F: 0 times x + x"),
            ("M.dfy G: g\n- x\n+ y\n", "M.dfy G: 2 times x"),
        ] {
            assert_eq!(applied(wrong).unwrap_err(), fault);
        }
        assert!(read("M.dfy F: f\n- x\n").is_err());
        assert!(read("M.dfy F\n- x\n+ y\n").is_err());
        assert!(read("M.dfy F: f\n+ x\n- y\n").is_err());
    }
}
