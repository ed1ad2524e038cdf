//! The pages as a manual page.
use crate::pages::{Page, ABOUT, PAGES};
use crate::DATE;
use std::fmt::Write;

const DESCRIPTION: &[&str] = &[
    "A table divides keys into slots, and the prefix that all keys of a slot share is replaced by another, its edge, if it has one. joistdenim shows what becomes of keys, makes tables of text and text of tables, and changes tables and buckets.",
    "It reads and prints. Every answer is the library's, whose calls are proved; what the library refuses is told with the number and the reason, and changes no file.",
];

/// Words stay whole, as somebody may look for them or copy them.
const WHOLE_WORDS: &str = ".nh\n.ad l\n";

/// In the manual's own form.
const SEE_ALSO: &str = ".SH SEE ALSO
.BR od (1),
.BR cp (1)
.PP
The documents beside it: COMMAND.md on this command, FORMAT.md on the bytes of tables and buckets, CALLS.md on the calls and refusals.
";

pub fn man() -> String {
    let version = env!("CARGO_PKG_VERSION");
    let mut text = format!(
        ".TH JOISTDENIM 1 \"{DATE}\" \"joistdenim {version}\"\n{WHOLE_WORDS}.SH NAME\njoistdenim \\- tables, keys and buckets, by the proved library\n.SH SYNOPSIS\n"
    );
    for page in PAGES {
        let _ = writeln!(
            text,
            ".B joistdenim {}\n{}\n.br",
            page.name,
            escaped(page.usage)
        );
    }
    text += ".B joistdenim\n\\-\\-help | \\-\\-version | \\-\\-man | \\-\\-completions SHELL\n.SH DESCRIPTION\n";
    paragraphs(&mut text, DESCRIPTION);
    text += ".SH COMMANDS\n";
    for page in PAGES {
        command(&mut text, page);
    }
    for section in ABOUT {
        let _ = writeln!(text, ".SH {}", section.title.to_uppercase());
        paragraphs(&mut text, section.text);
    }
    text += SEE_ALSO;
    text
}

fn paragraphs(text: &mut String, paragraphs: &[&str]) {
    for (i, paragraph) in paragraphs.iter().enumerate() {
        *text += if i == 0 { "" } else { ".PP\n" };
        let _ = writeln!(text, "{}", escaped(paragraph));
    }
}

fn command(text: &mut String, page: &Page) {
    let _ = writeln!(text, ".SS joistdenim {} {}", page.name, escaped(page.usage));
    paragraphs(text, page.text);
    for (option, meaning) in page.options {
        let _ = writeln!(text, ".TP\n.B {}\n{}", escaped(option), escaped(meaning));
    }
    // Tabs every eight columns, as a terminal has them.
    *text += ".PP\nExample:\n.PP\n.nf\n.RS\n.ta T 8n\n";
    for line in page.example.lines() {
        let _ = writeln!(text, "{}", escaped(line));
    }
    *text += ".RE\n.fi\n";
}

/// A line that means itself: characters that would be printed as others, by which nobody could search
/// or copy, and a dot at its head.
fn escaped(line: &str) -> String {
    let mut text = line.replace('\\', "\\e");
    for (character, name) in [("-", "-"), ("'", "(aq"), ("^", "(ha"), ("~", "(ti")] {
        text = text.replace(character, &format!("\\{name}"));
    }
    match text.starts_with('.') {
        true => format!("\\&{text}"),
        false => text,
    }
}
