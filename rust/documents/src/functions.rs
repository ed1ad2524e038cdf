//! The public functions of a file of Rattle's code, with the clauses of their contracts.
use crate::words::words;

/// What a clause begins with.
const KEYWORDS: [&str; 2] = ["requires", "ensures"];

/// What begins a line that hands on names.
const HANDED_ON: &str = "pub use ";

#[derive(Debug, PartialEq)]
pub struct Function {
    pub line: usize,
    pub name: String,
    pub clauses: Vec<Clause>,
}

#[derive(Debug, PartialEq)]
pub struct Clause {
    pub is_requires: bool,
    /// What stands between its braces.
    pub text: String,
}

/// Functions and methods that are `pub`, whatever stands between that and `fn`; not those of the crate alone.
pub fn functions(text: &str) -> Vec<Function> {
    let code: Vec<&str> = text.lines().map(without_comment).collect();
    let mut found = vec![];
    for (i, line) in code.iter().enumerate() {
        if let Some(name) = declared(line) {
            found.push(Function {
                line: i + 1,
                name: name.to_string(),
                clauses: clauses(&code[i..].join("\n")),
            });
        }
    }
    found
}

/// The crate, or the module, from which a file of code hands a function on by its name, alone or in a group, which may
/// go over several lines.
pub fn origin<'a>(text: &'a str, wanted: &str) -> Option<&'a str> {
    let begins = text.match_indices(HANDED_ON);
    let uses = begins.filter(|(at, _)| text[..*at].is_empty() || text[..*at].ends_with('\n'));
    let mut paths = uses.filter_map(|(at, mark)| text[at + mark.len()..].split(';').next());
    paths.find_map(|path| {
        let (from, names) = path.split_once("::")?;
        let group = names.strip_prefix('{').and_then(|n| n.strip_suffix('}'));
        let mut names = group.unwrap_or(names).split(',').map(str::trim);
        names.any(|name| name == wanted).then_some(from)
    })
}

fn without_comment(line: &str) -> &str {
    line.split("//").next().unwrap_or("")
}

fn declared(line: &str) -> Option<&str> {
    let declared = line.trim_start().strip_prefix("pub ")?;
    let mut names = words(declared.split('(').next()?).skip_while(|word| *word != "fn");
    names.nth(1)
}

/// The clauses between a signature and its body, which is the first brace that no clause begins before.
fn clauses(code: &str) -> Vec<Clause> {
    let mut clauses = vec![];
    let mut rest = code;
    while let Some(open) = rest.find('{') {
        let Some(keyword) = keyword(&rest[..open]) else {
            break;
        };
        let end = closing(rest, open);
        clauses.push(Clause {
            is_requires: keyword == "requires",
            text: rest[open + 1..end].to_string(),
        });
        rest = rest.get(end + 1..).unwrap_or("");
    }
    clauses
}

fn keyword(text: &str) -> Option<&str> {
    text.split_whitespace().find(|word| KEYWORDS.contains(word))
}

/// Where the brace at `open` is closed, or the end.
pub fn closing(text: &str, open: usize) -> usize {
    let mut depth = 0;
    for (i, c) in text[open..].char_indices() {
        match c {
            '{' => depth += 1,
            '}' => depth -= 1,
            _ => {}
        }
        if depth == 0 {
            return open + i;
        }
    }
    text.len()
}

#[cfg(test)]
mod tests {
    use super::functions;

    const CODE: &str = "// pub fn told_of()
pub fn bare(a: u8) -> u8 {
    requires_none { a }
}

fn own(a: u8) -> u8
    requires { a ≤ 1 }
{
    a
}

pub(crate) fn near(a: u8) -> u8
    requires { a ≤ 1 }
{
    a
}

impl Pair {
    pub fn asked<'a>(
        a: &'a [u8], // requires { nothing }
    ) -> &'a [u8]
        ensures count { Unit {0} }
        requires few { a ≤ 1 }
    {
        a
    }
}

pub extern \"C\" fn out(a: u8) -> u8
    ensures { result ≡ a }
{
    a
}
";

    #[test]
    fn public_ones_are_found_with_their_clauses() {
        let found = functions(CODE);
        let names: Vec<(usize, &str)> = found.iter().map(|f| (f.line, f.name.as_str())).collect();
        assert_eq!(names, [(2, "bare"), (19, "asked"), (29, "out")]);
        let clauses = |i: usize| -> Vec<(bool, &str)> {
            let clauses = found[i].clauses.iter();
            clauses.map(|c| (c.is_requires, c.text.trim())).collect()
        };
        assert_eq!(clauses(0), []);
        assert_eq!(clauses(1), [(false, "Unit {0}"), (true, "a ≤ 1")]);
        assert_eq!(clauses(2), [(false, "result ≡ a")]);
    }
}
