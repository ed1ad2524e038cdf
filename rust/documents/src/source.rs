//! The declarations, clauses and comments of a Dafny file, by line.

#[derive(Clone, Copy, Debug, PartialEq)]
pub enum Kind {
    Declaration,
    /// A clause without its parts, which stand on lines of their own that begin with `&&`.
    Head,
    /// A clause, or a part of one.
    Requires,
    Ensures,
    Comment,
}

#[derive(Debug, PartialEq)]
pub struct Item {
    pub line: usize,
    pub kind: Kind,
    /// As in the file, with single spaces and without the mark of a comment.
    pub text: String,
}

struct Line<'a> {
    number: usize,
    text: &'a str,
    commented: bool,
    body: bool,
}

pub fn items(text: &str) -> Vec<Item> {
    let lines = lines(text);
    let mut items = vec![];
    let mut at = 0;
    while at < lines.len() {
        let line = &lines[at];
        let mut next = at + 1;
        if line.is_declaration() {
            if !line.begins(&["type", "datatype"]) {
                next = end(&lines, at);
            }
            items.push(item(&lines[at..next], Kind::Declaration));
        } else if let Some(kind) = line.clause() {
            next = end(&lines, at);
            items.extend(clause(&lines[at..next], kind));
        } else if line.commented {
            items.push(item(&lines[at..next], Kind::Comment));
        }
        at = next;
    }
    items
}

impl Line<'_> {
    fn begins(&self, words: &[&str]) -> bool {
        let first = self.text.split_whitespace().next();
        first.is_some_and(|first| words.contains(&first))
    }

    fn is_declaration(&self) -> bool {
        let words: &[&str] = if self.commented {
            &["method"]
        } else {
            &["type", "datatype", "predicate", "function", "method"]
        };
        !self.body && self.begins(words)
    }

    fn clause(&self) -> Option<Kind> {
        if self.body {
            None
        } else if self.begins(&["requires"]) {
            Some(Kind::Requires)
        } else if self.begins(&["ensures"]) {
            Some(Kind::Ensures)
        } else {
            None
        }
    }
}

/// Lines without indentation, without `// `, and whether they stand in a body.
fn lines(text: &str) -> Vec<Line<'_>> {
    let mut body: Option<&str> = None;
    let mut lines = vec![];
    for (i, whole) in text.lines().enumerate() {
        let bare = whole.trim();
        let indent = &whole[..whole.len() - whole.trim_start().len()];
        if body.is_none() && bare.starts_with('{') {
            body = Some(indent);
        }
        let comment = bare.strip_prefix("//");
        lines.push(Line {
            number: i + 1,
            text: comment.map_or(bare, |c| c.strip_prefix(' ').unwrap_or(c)),
            commented: comment.is_some(),
            body: body.is_some(),
        });
        if body == Some(indent) && bare.ends_with('}') {
            body = None;
        }
    }
    lines
}

/// Where the text that begins at this line ends.
fn end(lines: &[Line], at: usize) -> usize {
    let ends = |line: &Line| {
        line.text.is_empty()
            || line.text.starts_with('{')
            || line.clause().is_some()
            || line.commented != lines[at].commented
    };
    let rest = &lines[at + 1..];
    at + 1 + rest.iter().position(ends).unwrap_or(rest.len())
}

/// A clause as one item, or as its head and its parts.
fn clause(lines: &[Line], kind: Kind) -> Vec<Item> {
    let is_part = |i: &usize| lines[*i].text.starts_with("&&");
    let mut starts: Vec<usize> = (1..lines.len()).filter(is_part).collect();
    if starts.is_empty() {
        return vec![item(lines, kind)];
    }
    let mut items = vec![item(&lines[..starts[0]], Kind::Head)];
    starts.push(lines.len());
    for ends in starts.windows(2) {
        items.push(item(&lines[ends[0]..ends[1]], kind));
    }
    items
}

fn item(lines: &[Line], kind: Kind) -> Item {
    let texts: Vec<&str> = lines.iter().map(|line| line.text).collect();
    Item {
        line: lines[0].number,
        kind,
        text: collapsed(&texts.join(" ")),
    }
}

/// With single spaces.
pub fn collapsed(text: &str) -> String {
    text.split_whitespace().collect::<Vec<_>>().join(" ")
}
