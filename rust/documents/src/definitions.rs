//! The definitions of the crates' specs and the types of their code, and which of them each uses, by name.
use crate::evidence::{public, Evidence};
use crate::repository::Repository;
use crate::scope::{is_in, names_in, Scope};
use std::collections::{BTreeMap, BTreeSet};

pub struct Definitions<'a> {
    files: BTreeMap<&'a str, File>,
}

#[derive(Default)]
struct File {
    scope: Scope,
    items: Vec<Item>,
    /// Each name that it declares, with its item: a constructor's is its type's.
    owners: BTreeMap<String, usize>,
}

struct Item {
    name: String,
    line: usize,
    text: String,
}

impl<'a> Definitions<'a> {
    pub fn of(repository: &'a Repository) -> Self {
        let is_read = |path: &str| is_in(path, "specs", ".antt") || is_in(path, "src", ".rt");
        let files = repository.files().filter(|(path, _)| is_read(path));
        Definitions {
            files: files
                .map(|(path, text)| (path, File::read(repository, path, text)))
                .collect(),
        }
    }

    /// The lines that bring in names and aren't read, which would hide what is used.
    pub fn unread(&self) -> impl Iterator<Item = (&str, usize)> {
        let files = self.files.iter();
        files.flat_map(|(path, file)| file.scope.unread.iter().map(|line| (*path, *line)))
    }

    /// The line of a definition, if it is there.
    pub fn line(&self, wanted: &Evidence) -> Option<usize> {
        self.item(wanted).map(|item| item.line)
    }

    /// What a definition uses, but for itself.
    pub fn uses(&self, of: &Evidence) -> BTreeSet<Evidence> {
        let Some(item) = self.item(of) else {
            return BTreeSet::new();
        };
        let mut uses = self.cited(&of.path, &item.text);
        uses.remove(of);
        uses
    }

    /// The definitions that a text in a file names: those of the file itself, and those that it brings in.
    pub fn cited(&self, path: &str, text: &str) -> BTreeSet<Evidence> {
        let Some(file) = self.files.get(path) else {
            return BTreeSet::new();
        };
        let named = |name: String| {
            let is_own = file.owners.contains_key(&name);
            let own = is_own.then(|| Evidence::at(path, &name));
            let of = own.or_else(|| file.scope.get(&name).cloned())?;
            Some(self.owner(&of))
        };
        names_in(text)
            .filter_map(|name| named(name.to_string()).or_else(|| named(format!("◌{name}◌"))))
            .collect()
    }

    /// The definition that a name belongs to; the name itself where there is none.
    pub fn owner(&self, of: &Evidence) -> Evidence {
        let owner = self.files.get(of.path.as_str()).and_then(|file| {
            let item = &file.items[*file.owners.get(&of.name)?];
            Some(Evidence::at(&of.path, &item.name))
        });
        owner.unwrap_or_else(|| of.clone())
    }

    fn item(&self, wanted: &Evidence) -> Option<&Item> {
        let file = self.files.get(wanted.path.as_str())?;
        file.items.iter().find(|item| item.name == wanted.name)
    }
}

impl File {
    fn read(repository: &Repository, path: &str, text: &str) -> Self {
        let mut file = File {
            scope: Scope::of(repository, text),
            ..File::default()
        };
        let is_code = path.ends_with(".rt");
        let (mark, begins): (_, fn(&str) -> Option<&str>) = if is_code {
            ("//", type_name)
        } else {
            ("--", definition_name)
        };
        for (i, line) in text.lines().enumerate() {
            let line = line.split(mark).next().unwrap_or("");
            file.take(i + 1, line, begins(line));
        }
        if is_code {
            file.items.iter_mut().for_each(Item::end);
        } else {
            file.own_constructors(path, text);
        }
        file
    }

    /// A constructor belongs to the type above it. Fields are public too, but a field's name is no definition's.
    fn own_constructors(&mut self, path: &str, text: &str) {
        let lines: Vec<&str> = text.lines().collect();
        for public in public(path, text).unwrap_or_default() {
            let is_field = lines[public.line - 1].trim_start().starts_with("pub ");
            let above = self.items.iter().rposition(|item| item.line < public.line);
            if let Some(above) = above.filter(|_| !is_field) {
                self.owners.entry(public.name).or_insert(above);
            }
        }
    }

    /// A line, which begins an item or belongs to the one before.
    fn take(&mut self, number: usize, line: &str, begins: Option<&str>) {
        if let Some(name) = begins {
            self.owners.insert(name.to_string(), self.items.len());
            self.items.push(Item {
                name: name.to_string(),
                line: number,
                text: String::new(),
            });
        }
        if let Some(item) = self.items.last_mut() {
            item.text.push_str(meant(line));
            item.text.push('\n');
        }
    }
}

impl Item {
    /// A type ends at its brace; what follows it in its file is code.
    fn end(&mut self) {
        let end = self.text.find("\n}").unwrap_or(self.text.len());
        self.text.truncate(end);
    }
}

/// A line without a field's name, and nothing of a line that defines nothing.
fn meant(line: &str) -> &str {
    let is_other = ["use ", "ghost use ", "infix"];
    if is_other.iter().any(|word| line.starts_with(word)) {
        return "";
    }
    let field = line.strip_prefix(' ').map(str::trim_start);
    let field = field.and_then(|field| field.strip_prefix("pub "));
    field
        .and_then(|field| field.split_once(" : "))
        .map_or(line, |(_, kind)| kind)
}

/// The name of the definition that a line of specs begins, public or not.
fn definition_name(line: &str) -> Option<&str> {
    let mut words = line.split(' ').peekable();
    let mut marked = false;
    while let Some(word) = words.next_if(|w| ["abbrev", "unfoldable", "pub"].contains(w)) {
        marked |= !word.is_empty();
    }
    let kind = words.next_if(|word| ["data", "record"].contains(word));
    let name = words.next().filter(|name| !name.is_empty())?;
    let declares = marked || kind.is_some() || words.next() == Some(":");
    (declares && !["use", "mod", "--"].contains(&name)).then_some(name)
}

/// The name of the type that a line of code begins.
fn type_name(line: &str) -> Option<&str> {
    let declared = line.strip_prefix("pub ").unwrap_or(line);
    let mut words = declared.split([' ', '<', '{', '(']);
    let is_type = matches!(words.next()?, "enum" | "struct");
    is_type.then(|| words.next()).flatten()
}

#[cfg(test)]
mod tests {
    use super::Definitions;
    use crate::evidence::Evidence;
    use crate::repository::Repository;

    const TYPES: &str = "crates/model/src/lib.rt";
    const CUT: &str = "crates/model/specs/cuts/Cut.antt";
    const END: &str = "crates/model/specs/cuts/End.antt";

    const FILES: [(&str, &str); 3] = [
        (
            TYPES,
            "pub enum Answer {\n    No(Why),\n}\n\npub enum Why {\n    Long, // unlike Answer\n}\n\nfn own() -> Answer {}\n",
        ),
        (
            CUT,
            "use Rattle.model.specs.declared.Answer.TheVariants as answers
use Rattle.model.specs.declared.Why.TheVariants.{Long}

-- a half
pub data Cut : Type 0 where
  ◌or◌ : ℕ → ℕ → Cut

abbrev pub cut : ℕ
cut = long

long : ℕ
long = answers.No Long

abbrev pub half {ℓ} : ℕ
half = 1
infix 5 ◌or◌
",
        ),
        (
            END,
            "use Rattle.model.specs.cuts.Cut.{◌or◌, cut, half}

pub record Same : Type 0 where
  pub cut : ℕ

abbrev pub end : ℕ
end = (1 or 2) cut -- or half

abbrev pub last : Same → ℕ
last s = s.half
",
        ),
    ];

    /// What a definition uses, by the names alone.
    fn uses(path: &str, name: &str) -> Vec<String> {
        let repository = Repository::of(&FILES);
        let definitions = Definitions::of(&repository);
        let of = Evidence::at(path, name);
        assert!(definitions.line(&of).is_some(), "{name}");
        definitions
            .uses(&of)
            .into_iter()
            .map(|of| of.name)
            .collect()
    }

    #[test]
    fn constructors_stand_for_their_types() {
        assert_eq!(uses(CUT, "long"), ["Answer", "Why"]);
        assert_eq!(uses(END, "end"), ["Cut", "cut"]);
    }

    #[test]
    fn fields_and_comments_and_other_lines_are_no_uses() {
        assert_eq!(uses(END, "Same"), [""; 0]);
        assert_eq!(uses(END, "last"), ["Same"]);
        assert_eq!(uses(CUT, "half"), [""; 0]);
        assert_eq!(uses(TYPES, "Why"), [""; 0]);
    }

    #[test]
    fn what_is_not_public_is_a_definition_too_and_a_type_ends_at_its_brace() {
        assert_eq!(uses(CUT, "cut"), ["long"]);
        assert_eq!(uses(CUT, "Cut"), [""; 0]);
        assert_eq!(uses(TYPES, "Answer"), ["Why"]);
    }
}
