//! A page as the text that `--help` prints.
use crate::pages::{Page, Section};
use std::fmt::Write;

/// The longest line of a paragraph.
const WIDTH: usize = 78;
/// The column of options is as wide, or wider where one is long.
const OPTION_WIDTH: usize = 9;

/// The commands, and what holds for all of them.
pub fn all(about: &[Section], pages: &[Page]) -> String {
    let mut text = String::from(
        "joistdenim: tables, keys and buckets, by the proved library\n\n\
         joistdenim COMMAND ..\njoistdenim COMMAND --help\njoistdenim --help | --version | --man | --completions SHELL\n\nCommands:\n",
    );
    for page in pages {
        let _ = writeln!(text, "  {:<8}{}", page.name, page.about);
    }
    for section in about {
        let _ = write!(text, "\n{}:\n", section.title);
        for paragraph in section.text {
            text += &wrapped(paragraph, "  ");
        }
    }
    text
}

/// A command: usage, what it does, options and an example.
pub fn one(page: &Page) -> String {
    let mut text = String::new();
    let _ = writeln!(text, "joistdenim {} {}\n", page.name, page.usage);
    for (i, paragraph) in page.text.iter().enumerate() {
        text += if i == 0 { "" } else { "\n" };
        text += &wrapped(paragraph, "");
    }
    if !page.options.is_empty() {
        text += "\nOptions:\n";
    }
    let names = page.options.iter().map(|(option, _)| option.len() + 2);
    let width = names.fold(OPTION_WIDTH, usize::max);
    for (option, meaning) in page.options {
        let _ = writeln!(text, "  {option:<width$}{meaning}");
    }
    text += "\nExample:\n";
    for line in page.example.lines() {
        let _ = writeln!(text, "{}", format!("  {line}").trim_end());
    }
    text
}

/// A paragraph in lines of at most 78 characters, each after the margin.
pub fn wrapped(paragraph: &str, margin: &str) -> String {
    let mut text = String::new();
    let mut line = String::new();
    for word in paragraph.split(' ') {
        if margin.len() + line.len() + 1 + word.len() > WIDTH {
            let _ = writeln!(text, "{margin}{line}");
            line.clear();
        }
        if !line.is_empty() {
            line.push(' ');
        }
        line.push_str(word);
    }
    let _ = writeln!(text, "{margin}{line}");
    text
}
