//! For bash.
use super::{quoted, shells, spaced};
use crate::operands::Operand;
use crate::pages::{Page, OPTIONS, PAGES};

pub fn text() -> String {
    let cases: String = PAGES.iter().map(case).collect();
    include_str!("bash.txt")
        .replace("@COMMANDS@", &spaced(PAGES.iter().map(|page| page.name)))
        .replace(
            "@OPTIONS@",
            &spaced(OPTIONS.iter().map(|(option, _)| *option)),
        )
        .replace("@SHELLS@", &shells())
        .replace("@CASES@", &cases)
}

fn case(page: &Page) -> String {
    let options = quoted(&spaced(page.all_options().map(|(option, _)| option)));
    let operands: Vec<String> = page.operands.iter().map(operand).collect();
    let more = match (page.repeats(), operands.last()) {
        (true, Some(last)) => format!(" more={last}"),
        _ => String::new(),
    };
    format!(
        "    {})\n        options={options}\n        operands=({}){more}\n        ;;\n",
        page.name,
        operands.join(" ")
    )
}

fn operand(operand: &Operand) -> String {
    match operand {
        Operand::Word(words) => quoted(&spaced(words.iter().copied())),
        Operand::File(_) | Operand::FileOrInput(_) => "FILE".into(),
        Operand::Key | Operand::KeyOrInput => "KEY".into(),
    }
}
