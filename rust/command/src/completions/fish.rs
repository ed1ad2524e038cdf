//! For fish.
use super::{quoted, shells, spaced};
use crate::operands::Operand;
use crate::pages::{Page, OPTIONS, OUTPUT, PAGES};

const HEAD: &str =
    "# Completions of joistdenim for fish: what 'joistdenim --completions fish' prints.\n";

/// Without a command no files are named, and an option stands alone.
pub fn text() -> String {
    let mut lines = vec!["-f".into()];
    let first = "-n __fish_use_subcommand";
    for page in PAGES {
        lines.push(format!(
            "{first} -a {} -d {}",
            page.name,
            quoted(page.about)
        ));
    }
    for (option, meaning) in OPTIONS {
        let shells = match option {
            "--completions" => format!(" -x -a {}", quoted(&shells())),
            _ => String::new(),
        };
        lines.push(format!(
            "{first} {}{shells} -d {}",
            flag(option),
            quoted(meaning)
        ));
    }
    let commands = quoted(&spaced(PAGES.iter().map(|page| page.name)));
    lines.push(format!("{} -a {commands}", after("help")));
    lines.extend(PAGES.iter().flat_map(of_page));
    let line = |line: String| format!("complete -c joistdenim {line}\n");
    HEAD.to_string() + &lines.into_iter().map(line).collect::<String>()
}

fn after(name: &str) -> String {
    format!("-n '__fish_seen_subcommand_from {name}'")
}

fn flag(option: &str) -> String {
    format!("-l {}", option.trim_start_matches('-'))
}

fn of_page(page: &Page) -> Vec<String> {
    let after = after(page.name);
    let [short, long] = OUTPUT;
    let option = |(option, meaning): (&str, &str)| {
        let names = match option {
            _ if option == short => return None,
            _ if option == long => format!("-s {} {} -r -F", &short[1..], flag(long)),
            _ => flag(option),
        };
        Some(format!("{after} {names} -d {}", quoted(meaning)))
    };
    let operand = |operand: &Operand| match operand {
        Operand::Word(words) => {
            let words = quoted(&spaced(words.iter().copied()));
            Some(format!("{after} -a {words}"))
        }
        Operand::File(_) | Operand::FileOrInput(_) => Some(format!("{after} -F")),
        Operand::Key | Operand::KeyOrInput => None,
    };
    let mut lines: Vec<String> = page.all_options().filter_map(option).collect();
    lines.extend(page.operands.iter().filter_map(operand));
    lines.dedup();
    lines
}
