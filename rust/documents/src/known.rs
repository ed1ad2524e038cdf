//! What there is to name: files, crates with their public names, laws, and the words of the code.
use crate::evidence::{has, public, Evidence, Public};
use crate::functions::origin;
use crate::repository::Repository;
use crate::source::items;
use crate::words::{is_code, tokens, words, words_of_code};
use std::collections::BTreeSet;

pub struct Known<'a> {
    repository: &'a Repository,
    words: BTreeSet<String>,
    /// Names of files, with and without their ending, and of folders.
    places: BTreeSet<&'a str>,
    /// How the names of files end.
    endings: BTreeSet<&'a str>,
    /// Public names of definitions and laws.
    laws: BTreeSet<String>,
    /// Declarations, clauses and comments of the source.
    quotes: BTreeSet<String>,
}

impl<'a> Known<'a> {
    pub fn of(repository: &'a Repository) -> Self {
        let mut known = Known {
            repository,
            words: BTreeSet::new(),
            places: BTreeSet::new(),
            endings: BTreeSet::new(),
            laws: BTreeSet::new(),
            quotes: BTreeSet::new(),
        };
        for (path, text) in repository.files() {
            known.places.extend(path.split('/'));
            let file = path
                .rsplit('/')
                .next()
                .and_then(|name| name.rsplit_once('.'));
            if let Some((stem, ending)) = file.filter(|(stem, _)| !stem.is_empty()) {
                known.places.insert(stem);
                known.endings.insert(ending);
            }
            if path.ends_with(".antt") {
                let names = public(path, text).unwrap_or_default();
                known.laws.extend(names.into_iter().map(|law| law.name));
            }
            if path.ends_with(".dfy") {
                let texts = items(text).into_iter().map(|item| item.text);
                known.quotes.extend(texts);
            }
            if is_code(path) {
                known.words.extend(words_of_code(path, text));
            }
        }
        known
    }

    /// Whether a span is the source's own text.
    pub fn quotes(&self, span: &str) -> bool {
        self.quotes.contains(span)
    }

    /// What is wrong with a piece of a span, if anything.
    pub fn fault(&self, piece: &str) -> Option<String> {
        let cited = Evidence::of(piece).filter(|cited| self.is_path(&cited.path));
        if let Some(cited) = cited {
            return cited.fault(self.repository);
        }
        if self.is_path(piece) {
            return (!self.has_path(piece)).then(|| format!("there is no {piece}"));
        }
        tokens(piece).into_iter().find_map(|token| {
            if token.contains("::") {
                self.fault_of_qualified(token)
            } else if token.contains('-') {
                let there = self.laws.contains(token) || self.places.contains(token);
                (!there).then(|| format!("there is no law {token}"))
            } else {
                (!self.has_word(token)).then(|| format!("{token} is no word of the code"))
            }
        })
    }

    fn is_path(&self, piece: &str) -> bool {
        let in_path = |c: char| c.is_ascii_alphanumeric() || "_.*/-".contains(c);
        let file = piece.rsplit_once('.').filter(|(stem, _)| !stem.is_empty());
        let ends = file.is_some_and(|(_, ending)| self.endings.contains(ending));
        let names = piece.chars().all(in_path) && piece.contains(char::is_alphanumeric);
        names && (piece.contains('/') || ends)
    }

    /// A path from the root, but for what is built; a file of definitions or laws; or a file's name alone.
    fn has_path(&self, path: &str) -> bool {
        let in_model = |folder| format!("crates/model/{folder}/{path}.antt");
        path.split('/').any(|folder| folder == "target")
            || self.repository.has(path)
            || self.repository.has(&in_model("specs"))
            || self.repository.has(&in_model("proofs"))
            || self.places.contains(path)
    }

    /// A word that ends in an underscore begins others. One letter, a number or a byte names nothing.
    fn has_word(&self, word: &str) -> bool {
        let is_byte = word.len() == 2 && word.chars().all(|c| "0123456789ABCDEF".contains(c));
        let is_number = word.starts_with(|c: char| c.is_ascii_digit());
        let begins = |known: &String| word.ends_with('_') && known.starts_with(word);
        word.len() < 2
            || is_byte
            || is_number
            || self.words.contains(word)
            || self.laws.contains(word)
            || self.places.contains(word)
            || self.words.iter().any(begins)
    }

    /// `crate::name`, `crate::Type::name`, or `Type::name` of some crate.
    fn fault_of_qualified(&self, token: &str) -> Option<String> {
        let (owner, name) = token.split_once("::")?;
        if let Some(names) = self.names_of_crate(owner) {
            let from = |(_, text)| origin(text, name);
            let code = format!("crates/{owner}/src");
            let handed = self.repository.under(&code).find_map(from);
            let there = has(&names, name)
                || handed
                    .and_then(|from| self.names_of_crate(from))
                    .is_some_and(|names| has(&names, name));
            return (!there).then(|| format!("{name} is not public in the crate {owner}"));
        }
        let mut files = self.repository.files().filter(|(path, _)| is_code(path));
        let there = files.any(|(path, text)| has(&public(path, text).unwrap_or_default(), token));
        (!there).then(|| format!("there is no crate {owner}, nor a public type with {name}"))
    }

    /// The public names of a crate: those that its root declares or hands on.
    fn names_of_crate(&self, name: &str) -> Option<Vec<Public>> {
        let folders = [format!("crates/{name}/src"), format!("rust/{name}/src")];
        let under = |folder| self.repository.under(folder);
        let files: Vec<(&str, &str)> = folders.iter().flat_map(|f| under(f)).collect();
        let is_root = |path: &str| path.ends_with("/lib.rt") || path.ends_with("/lib.rs");
        let roots = files.iter().filter(|(path, _)| is_root(path));
        let handed_on: BTreeSet<&str> = roots.flat_map(|(_, text)| handed_on(text)).collect();
        let mut names = vec![];
        for (path, text) in &files {
            let all = public(path, text).unwrap_or_default();
            let reached = |public: &Public| {
                let first = words(&public.name).next().unwrap_or("");
                is_root(path) || handed_on.contains(first)
            };
            names.extend(all.into_iter().filter(reached));
        }
        (!files.is_empty()).then_some(names)
    }
}

/// The words of `pub use`.
fn handed_on(root: &str) -> impl Iterator<Item = &str> {
    let uses = root.split("pub use ").skip(1);
    uses.flat_map(|rest| words(rest.split(';').next().unwrap_or("")))
}
