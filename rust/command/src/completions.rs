//! What shells read to complete the command's words, made of the pages.
mod bash;
mod fish;
mod zsh;

/// A shell, and what makes its text.
type Shell = (&'static str, fn() -> String);

const SHELLS: [Shell; 3] = [
    ("bash", bash::text),
    ("zsh", zsh::text),
    ("fish", fish::text),
];

/// What this shell reads, if it is one of the three.
pub fn of(shell: &str) -> Option<String> {
    let mut shells = SHELLS.iter();
    let (_, text) = shells.find(|(name, _)| *name == shell)?;
    Some(text())
}

/// Names with a space between them.
fn spaced<'a>(names: impl IntoIterator<Item = &'a str>) -> String {
    names.into_iter().collect::<Vec<&str>>().join(" ")
}

fn shells() -> String {
    spaced(SHELLS.iter().map(|(name, _)| *name))
}

/// A text that each of the shells takes for itself, whatever is in it.
fn quoted(text: &str) -> String {
    format!("'{}'", text.replace('\'', r"'\''"))
}
