//! What a function is asked about: the inputs that the program printed last, by their names.
use crate::words;
use std::collections::HashMap;

/// All that the program prints.
const NAMES: [&str; 17] = [
    "pt",
    "et",
    "key",
    "keys",
    "place",
    "idx",
    "slot",
    "left",
    "right",
    "end",
    "prefix",
    "newPrefix",
    "a",
    "b",
    "bucket",
    "buckets",
    "child",
];

#[derive(Default)]
pub struct Inputs {
    /// The rest of the line behind the name.
    texts: HashMap<&'static str, String>,
}

impl Inputs {
    pub fn take(&mut self, name: &str, text: &str) -> Result<(), String> {
        let known = NAMES.into_iter().find(|known| *known == name);
        let known = known.ok_or(format!("no such input: {name}"))?;
        self.texts.insert(known, text.to_string());
        Ok(())
    }

    pub fn words(&self, name: &str) -> Vec<&str> {
        let text = self.texts.get(name);
        let text = text.unwrap_or_else(|| panic!("the program printed no {name}"));
        text.split_whitespace().collect()
    }

    pub fn word(&self, name: &str) -> &str {
        match self.words(name)[..] {
            [word] => word,
            ref words => panic!("{name} is {} words", words.len()),
        }
    }

    pub fn key(&self, name: &str) -> Vec<u8> {
        words::key(self.word(name))
    }

    pub fn keys(&self, name: &str) -> Vec<Vec<u8>> {
        self.words(name).into_iter().map(words::key).collect()
    }

    pub fn records(&self, name: &str) -> Vec<u8> {
        words::records(&self.words(name))
    }

    pub fn entries(&self, name: &str) -> Vec<u8> {
        words::entries(&self.words(name))
    }

    pub fn pair(&self, name: &str) -> Vec<u8> {
        words::pair(&self.words(name))
    }

    pub fn number(&self, name: &str) -> u64 {
        let word = self.word(name);
        word.parse()
            .unwrap_or_else(|e| panic!("{name} {word}: {e}"))
    }
}
