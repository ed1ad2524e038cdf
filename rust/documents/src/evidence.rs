//! Names as documents cite them, `path:name`, and the names that are public in a file.
use crate::repository::Repository;
use crate::words::words;

#[derive(Clone, Debug, PartialEq, Eq, PartialOrd, Ord)]
pub struct Evidence {
    pub path: String,
    pub name: String,
}

#[derive(Debug, PartialEq)]
pub struct Public {
    pub name: String,
    pub line: usize,
}

impl Evidence {
    pub fn at(path: &str, name: &str) -> Self {
        Evidence {
            path: path.to_string(),
            name: name.to_string(),
        }
    }

    pub fn of(span: &str) -> Option<Self> {
        let (path, name) = span.split_once(':')?;
        let fits = !path.is_empty() && !name.is_empty() && !name.starts_with(':');
        fits.then(|| Evidence::at(path, name))
    }

    /// What is wrong with it, if anything.
    pub fn fault(&self, repository: &Repository) -> Option<String> {
        let Evidence { path, name } = self;
        let Some(text) = repository.text(path) else {
            return Some(format!("`{path}:{name}`: there is no file {path}"));
        };
        match public(path, text) {
            Some(names) => (!has(&names, name))
                .then(|| format!("`{path}:{name}`: {name} is not public in {path}")),
            None => (!words(text).any(|word| word == name))
                .then(|| format!("`{path}:{name}`: the word {name} is not in {path}")),
        }
    }
}

/// The public names of a file of code or proofs; `None` for other files.
pub fn public(path: &str, text: &str) -> Option<Vec<Public>> {
    match path.rsplit_once('.')?.1 {
        "antt" => Some(public_in_antt(text)),
        "rt" | "rs" => Some(public_in_code(text)),
        _ => None,
    }
}

/// Whether a name is public, and so is the type that it is written under.
pub fn has(names: &[Public], name: &str) -> bool {
    let is_there = |wanted: &str| names.iter().any(|public| public.name == wanted);
    let owner = name.rsplit_once("::").map(|(owner, _)| owner);
    is_there(name) && owner.is_none_or(is_there)
}

fn public_in_antt(text: &str) -> Vec<Public> {
    let lines: Vec<&str> = text.lines().collect();
    let mut names = vec![];
    for (i, line) in lines.iter().enumerate() {
        let Some(declared) = declared_in_antt(line) else {
            continue;
        };
        let record = declared.strip_prefix("record ");
        let data = declared.strip_prefix("data ");
        let name = first_name(record.or(data).unwrap_or(declared));
        let line = i + 1;
        names.push(Public { name, line });
        if data.is_some() {
            names.extend(constructors(&lines, i));
        }
    }
    names
}

/// What follows `pub`, but for modules and imports.
fn declared_in_antt(line: &str) -> Option<&str> {
    let line = line.trim_start();
    let marked = line.strip_prefix("abbrev ");
    let line = marked.or(line.strip_prefix("unfoldable ")).unwrap_or(line);
    let declared = line.strip_prefix("pub ")?;
    (!declared.starts_with("mod ") && !declared.starts_with("use ")).then_some(declared)
}

fn first_name(text: &str) -> String {
    let ends = |c: char| c.is_whitespace() || ":({".contains(c);
    text.split(ends).next().unwrap_or("").to_string()
}

/// The names at the first indentation below a `pub data`.
fn constructors(lines: &[&str], at: usize) -> Vec<Public> {
    let depth = |line: &str| line.len() - line.trim_start().len();
    let mut names = vec![];
    let mut column = None;
    for (i, line) in lines.iter().enumerate().skip(at + 1) {
        let bare = line.trim();
        if bare.is_empty() || bare.starts_with("--") {
            continue;
        }
        if depth(line) <= depth(lines[at]) {
            break;
        }
        if depth(line) == *column.get_or_insert(depth(line)) {
            let name = first_name(bare);
            names.push(Public { name, line: i + 1 });
        }
    }
    names
}

/// Functions, types and constants; methods and variants under their type's name too.
fn public_in_code(text: &str) -> Vec<Public> {
    let mut names = vec![];
    let mut methods_of: Option<&str> = None;
    let mut variants_of: Option<&str> = None;
    for (i, line) in text.lines().enumerate() {
        let declared = declared_in_code(line);
        let mut found = vec![];
        if line.starts_with('}') {
            (methods_of, variants_of) = (None, None);
        } else if let Some(of) = line.strip_prefix("impl ") {
            methods_of = words(of).next();
        } else if let Some((kind, name)) = declared {
            found.push(name.to_string());
            found.extend(methods_of.map(|owner| format!("{owner}::{name}")));
            variants_of = (kind == "enum").then_some(name);
        } else if let Some(owner) = variants_of {
            let variant = words(line)
                .next()
                .filter(|_| !line.trim().starts_with("//"));
            found.extend(variant.map(|name| format!("{owner}::{name}")));
        }
        let line = i + 1;
        names.extend(found.into_iter().map(|name| Public { name, line }));
    }
    names
}

/// The keyword and the name of a public declaration.
fn declared_in_code(line: &str) -> Option<(&'static str, &str)> {
    let declared = line.trim_start().strip_prefix("pub ")?;
    let declared = declared.strip_prefix("extern \"C\" ").unwrap_or(declared);
    let declared = declared
        .strip_prefix("const fn ")
        .map_or(declared, |_| &declared[6..]);
    for kind in ["fn", "struct", "enum", "const", "type", "trait"] {
        let rest = declared
            .strip_prefix(kind)
            .and_then(|rest| rest.strip_prefix(' '));
        if let Some(name) = rest.and_then(|rest| words(rest).next()) {
            return Some((kind, name));
        }
    }
    None
}
