//! Answers as blocks of lines, for people.
use super::answer::{shown, Answer};
use crate::failure::Refused;
use joistdenim::{Edge, Element, Slot};

/// What is replaced, and what stands in its place.
const OLD: &str = "\x1b[31m";
const NEW: &str = "\x1b[1;32m";
const PLAIN: &str = "\x1b[0m";

pub struct Blocks {
    /// Whether keys are also shown as text.
    as_text: bool,
    colour: bool,
    first: bool,
}

impl Blocks {
    pub fn new(as_text: bool, colour: bool) -> Self {
        let first = true;
        Blocks {
            as_text,
            colour,
            first,
        }
    }

    pub fn block(&mut self, answer: &Answer) -> String {
        let asked = &answer.asked;
        let mut lines;
        match &answer.renamed {
            Ok((renamed, pair)) => {
                let (old, new) = pair.prefixes().unwrap_or_default();
                lines = self.key("key", asked, old.len(), OLD, "replaced");
                lines.extend(answer.slot.iter().flat_map(|slot| self.slot(slot)));
                let renamed = renamed.as_bytes();
                lines.extend(self.key("renamed", renamed, new.len(), NEW, "in its place"));
            }
            Err(Refused { refusal, text }) => {
                lines = self.key("key", asked, 0, PLAIN, "");
                lines.push(line("refused", &format!("{}: {text}", refusal.number())));
            }
        }
        lines.push(String::new());
        self.separated(lines.join("\n"))
    }

    /// A line that is no key.
    pub fn unread(&mut self, text: &str) -> String {
        self.separated(line("unread", text) + "\n")
    }

    /// An empty line between two blocks.
    fn separated(&mut self, block: String) -> String {
        let before = if self.first { "" } else { "\n" };
        self.first = false;
        format!("{before}{block}")
    }

    /// A key, the first bytes marked by a line below, and by colour where there is any.
    fn key(&self, label: &str, key: &[u8], marked: usize, mark: &str, note: &str) -> Vec<String> {
        let text = self.shown(key);
        if marked == 0 {
            return vec![line(label, &text)];
        }
        let (head, tail) = text.split_at(2 * marked);
        let text = match self.colour {
            true => format!("{mark}{head}{PLAIN}{tail}"),
            false => format!("{head}{tail}"),
        };
        let below = format!("{} {note}", "^".repeat(2 * marked));
        vec![line(label, &text), line("", &below)]
    }

    fn slot(&self, slot: &Slot) -> [String; 3] {
        let (number, left) = (slot.number, self.shown(slot.left.as_bytes()));
        let right = match slot.right {
            Element::Key(right) => self.shown(right.as_bytes()),
            Element::Max => slot.right.to_string(),
        };
        [
            line("slot", &format!("{number}, from {left} up to {right}")),
            line("shared", &self.shown(slot.shared.as_bytes())),
            self.edge(&slot.edge),
        ]
    }

    fn edge(&self, edge: &Edge) -> String {
        let text = match edge.prefix() {
            Some(prefix) if prefix.is_empty() => {
                format!("{edge} (empty: what is replaced is taken off)")
            }
            Some(prefix) => self.shown(prefix.as_bytes()),
            None => format!("{edge} (none: the key stays as it is)"),
        };
        line("edge", &text)
    }

    fn shown(&self, key: &[u8]) -> String {
        shown(key, self.as_text)
    }
}

fn line(label: &str, text: &str) -> String {
    format!("{label:<9}{text}")
}
