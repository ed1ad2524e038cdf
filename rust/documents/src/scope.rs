//! The names that a file of Rattle's code or specs brings in, and the names in a text.
use crate::evidence::{has, public, Evidence};
use crate::repository::Repository;
use std::collections::BTreeMap;

/// How the module of a crate begins, and how one of the toolchain's library, whose definitions are none of this
/// repository's.
const CRATE: &str = "Rattle.";
const LIBRARY: &str = "Rattle.std.";

/// Names and where each is from. A type's variants stand for the type, by their names or behind another name.
#[derive(Default)]
pub struct Scope {
    names: BTreeMap<String, Evidence>,
    /// The lines that aren't understood.
    pub unread: Vec<usize>,
}

impl Scope {
    pub fn of(repository: &Repository, text: &str) -> Self {
        let mut scope = Scope::default();
        for (i, line) in text.lines().enumerate() {
            let line = line.strip_prefix("ghost ").unwrap_or(line);
            let Some(used) = line.strip_prefix("use ") else {
                continue;
            };
            let is_of_crate = used.starts_with(CRATE) && !used.starts_with(LIBRARY);
            if is_of_crate && scope.take(repository, used).is_none() {
                scope.unread.push(i + 1);
            }
        }
        scope
    }

    pub fn get(&self, name: &str) -> Option<&Evidence> {
        self.names.get(name)
    }

    fn take(&mut self, repository: &Repository, used: &str) -> Option<()> {
        let used = used.trim_end_matches(';').trim_end();
        if let Some((module, names)) = used.split_once(".{") {
            let place = place(repository, module)?;
            for name in names.strip_suffix('}')?.split(", ") {
                if name.contains(|c: char| c.is_whitespace() || "{}.".contains(c)) {
                    return None;
                }
                self.names.insert(name.to_string(), place.named(name));
            }
            return Some(());
        }
        let (module, other) = used.split_once(" as ")?;
        let Place::Type(of) = place(repository, module)? else {
            return None;
        };
        self.names.insert(other.to_string(), of);
        Some(())
    }
}

/// A file of definitions, or a type.
enum Place {
    File(String),
    Type(Evidence),
}

impl Place {
    fn named(&self, name: &str) -> Evidence {
        match self {
            Place::File(path) => Evidence::at(path, name),
            Place::Type(of) => of.clone(),
        }
    }
}

/// Where a module is: `Rattle.NAME.specs.FOLDER.FILE`, and for a type of the crate's code `Rattle.NAME.specs.declared.TYPE`,
/// with `TheVariants` behind it.
fn place(repository: &Repository, module: &str) -> Option<Place> {
    let (name, inside) = module.strip_prefix(CRATE)?.split_once(".specs.")?;
    let parts: Vec<&str> = inside.split('.').collect();
    if let ["declared", of] | ["declared", of, "TheVariants"] = parts[..] {
        let folder = format!("crates/{name}/src");
        let is_there = |text: &str| has(&public("lib.rt", text).unwrap_or_default(), of);
        let mut files = repository.under(&folder);
        let path = files
            .find(|(_, text)| is_there(text))
            .map(|(path, _)| path.to_string());
        let path = path.unwrap_or_else(|| folder.clone());
        return Some(Place::Type(Evidence::at(&path, of)));
    }
    Some(Place::File(format!(
        "crates/{name}/specs/{}.antt",
        parts.join("/")
    )))
}

/// Whether a file is in that folder of a crate, at any depth, and has that ending.
pub fn is_in(path: &str, folder: &str, ending: &str) -> bool {
    let mut parts = path.split('/');
    parts.next() == Some("crates") && parts.nth(1) == Some(folder) && path.ends_with(ending)
}

/// The names in a text, of `Type.name` the first; a field's after its value is none.
pub fn names_in(text: &str) -> impl Iterator<Item = &str> {
    let parts = text.split(|c: char| c.is_whitespace() || "(){},;".contains(c));
    parts.filter_map(|part| part.split('.').next().filter(|name| !name.is_empty()))
}
