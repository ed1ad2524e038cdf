//! For zsh.
use super::{quoted, shells, spaced};
use crate::operands::Operand;
use crate::pages::{Page, OPTIONS, OUTPUT, PAGES};

pub fn text() -> String {
    let commands = PAGES.iter().map(|page| (page.name, page.about));
    let cases: String = PAGES.iter().map(case).collect();
    include_str!("zsh.txt")
        .replace("@COMMANDS@", &described(commands))
        .replace("@OPTIONS@", &described(OPTIONS.iter().copied()))
        .replace("@SHELLS@", &shells())
        .replace("@CASES@", &cases)
}

/// A line for each name, with what it means.
fn described<'a>(names: impl Iterator<Item = (&'a str, &'a str)>) -> String {
    let line = |(name, meaning)| format!("        {}\n", quoted(&format!("{name}:{meaning}")));
    names.map(line).collect()
}

fn case(page: &Page) -> String {
    let options = page.all_options().map(option);
    let count = page.operands.len();
    let operands = page.operands.iter().enumerate().map(|(i, operand)| {
        let is_repeated = page.repeats() && i + 1 == count;
        let place = if is_repeated {
            "*".into()
        } else {
            (i + 1).to_string()
        };
        format!("{place}:{}", action(operand))
    });
    let lines = options.chain(operands).map(|spec| quoted(&spec));
    let specs: Vec<String> = lines.collect();
    let name = page.name;
    format!(
        "    ({name})\n        _arguments \\\n            {}\n        ;;\n",
        specs.join(" \\\n            ")
    )
}

/// An option with its meaning. The file of -o may be joined to it, that of --output by a =.
fn option((option, meaning): (&str, &str)) -> String {
    let meaning = meaning.replace('[', r"\[").replace(']', r"\]");
    let [short, long] = OUTPUT;
    match option {
        _ if option == short => format!("({long}){short}+[{meaning}]:file:_files"),
        _ if option == long => format!("({short}){long}=[{meaning}]:file:_files"),
        _ => format!("{option}[{meaning}]"),
    }
}

/// What an argument is called, and what completes it.
fn action(operand: &Operand) -> String {
    match operand {
        Operand::Word(words) => format!("word:({})", spaced(words.iter().copied())),
        Operand::File(holds) | Operand::FileOrInput(holds) => format!("{holds}:_files"),
        Operand::Key | Operand::KeyOrInput => "key: ".into(),
    }
}
