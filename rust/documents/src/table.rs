//! Markdown as far as it is read here: sections, tables, and spans of code.

/// A row of a table, without its heading rows.
pub struct Row {
    /// Its line in the document.
    pub at: usize,
    pub cells: Vec<String>,
}

/// A span of code, or `None` where it doesn't end on its line.
pub type Span = Option<String>;

/// The rows of the tables under a heading `## TITLE`; `None` without such a heading.
pub fn rows(document: &str, title: &str) -> Option<Vec<Row>> {
    let lines: Vec<&str> = document.lines().collect();
    let heading = lines
        .iter()
        .position(|l| l.strip_prefix("## ") == Some(title))?;
    let mut rows = vec![];
    for at in heading + 1..lines.len() {
        if lines[at].starts_with("## ") {
            break;
        }
        let is_heading = lines.get(at + 1).is_some_and(|next| is_rule(next));
        if lines[at].starts_with('|') && !is_rule(lines[at]) && !is_heading {
            let cells = cells(lines[at]);
            rows.push(Row { at: at + 1, cells });
        }
    }
    Some(rows)
}

/// The line between a table's headings and its rows.
fn is_rule(line: &str) -> bool {
    line.starts_with('|') && line.chars().all(|c| "|-: ".contains(c))
}

fn cells(line: &str) -> Vec<String> {
    let line = line.trim().strip_prefix('|').unwrap_or(line);
    let mut cells = vec![String::new()];
    let mut chars = line.chars().peekable();
    while let Some(c) = chars.next() {
        let last = cells.len() - 1;
        if c == '\\' && chars.peek() == Some(&'|') {
            cells[last].extend(chars.next());
        } else if c == '|' {
            cells.push(String::new());
        } else {
            cells[last].push(c);
        }
    }
    let end = cells.pop();
    if let Some(rest) = end.filter(|cell| !cell.trim().is_empty()) {
        cells.push(rest);
    }
    cells.iter().map(|cell| cell.trim().to_string()).collect()
}

/// The spans of code in the first cell of each row that begins with one, with its line.
pub fn heads(document: &str) -> Vec<(usize, String)> {
    let mut found = vec![];
    for (i, line) in document.lines().enumerate() {
        let first = line
            .strip_prefix("| `")
            .and_then(|_| line.split('|').nth(1));
        let spans = spans_of(first.unwrap_or("")).into_iter().flatten();
        found.extend(spans.map(|span| (i + 1, span)));
    }
    found
}

/// The spans of code outside fenced blocks, each with its line.
pub fn spans(document: &str) -> Vec<(usize, Span)> {
    let mut found = vec![];
    let mut fenced = false;
    for (i, line) in document.lines().enumerate() {
        if line.trim_start().starts_with("```") {
            fenced = !fenced;
        } else if !fenced {
            found.extend(spans_of(line).into_iter().map(|span| (i + 1, span)));
        }
    }
    found
}

/// A span ends at as many backticks as it began with.
pub fn spans_of(line: &str) -> Vec<Span> {
    let mut found = vec![];
    let mut rest = line;
    while let Some(start) = rest.find('`') {
        let marks = ticks(&rest[start..]);
        let body = &rest[start + marks..];
        let Some(end) = closing(body, marks) else {
            found.push(None);
            break;
        };
        found.push(Some(body[..end].trim().replace("\\|", "|")));
        rest = &body[end + marks..];
    }
    found
}

fn ticks(text: &str) -> usize {
    text.len() - text.trim_start_matches('`').len()
}

fn closing(body: &str, marks: usize) -> Option<usize> {
    let mut at = 0;
    while let Some(next) = body[at..].find('`') {
        let count = ticks(&body[at + next..]);
        if count == marks {
            return Some(at + next);
        }
        at += next + count;
    }
    None
}
