//! The refusals of a call, where they are listed for it, stand by turn: in the table of calls, and in the comments of
//! the code.
use crate::numbering::Numbering;
use crate::report::Report;
use crate::repository::Repository;
use crate::scope::is_in;

const CALLS: &str = "docs/CALLS.md";
const WRAPPER: &str = "rust/joistdenim/src";

/// How a comment begins its list.
const REFUSES: &str = "Refuses ";

/// The column of a table of calls that has it.
const COLUMN: &str = "refusals, in order";

/// The line of a list, and its numbers as they are written.
type List = (usize, Vec<String>);

pub fn check(repository: &Repository) -> Report {
    let mut report = Report::default();
    let numbering = Numbering::of(repository);
    let in_table = repository.text(CALLS).map_or(vec![], of_table);
    let mut check_lists = |path: &str, lists: Vec<List>| {
        for (line, list) in lists {
            let faults = fault(&list, &numbering).into_iter().collect();
            report.thing(&format!("{path}:{line}"), faults);
        }
    };
    check_lists(CALLS, in_table);
    let code = repository
        .files()
        .filter(|(path, _)| is_in(path, "src", ".rt"));
    for (path, text) in code.chain(repository.under(WRAPPER)) {
        check_lists(path, of_comments(text));
    }
    if report.passed == 0 {
        report.fail("no list of a call's refusals was found".to_string());
    }
    report
}

/// A call that hands back a part refuses nothing, and has an empty cell.
fn of_table(document: &str) -> Vec<List> {
    let mut column = None;
    let mut lists = vec![];
    for (i, line) in document.lines().enumerate() {
        let cells: Vec<&str> = line.split('|').map(str::trim).collect();
        if let Some(found) = cells.iter().position(|cell| *cell == COLUMN) {
            column = Some(found);
        } else if !line.starts_with('|') {
            column = None;
        } else if let Some(cell) = column.and_then(|column| cells.get(column)) {
            let numbers = cell.split(", ").map(str::to_string).collect();
            let is_list = !cell.is_empty() && !cell.starts_with("--");
            lists.extend(is_list.then_some((i + 1, numbers)));
        }
    }
    lists
}

/// What begins so without a number tells something else.
fn of_comments(text: &str) -> Vec<List> {
    let read = |(at, _)| {
        let words = text[at + REFUSES.len()..].split_whitespace();
        let bare: Vec<&str> = words.filter(|w| !w.starts_with("//")).take(99).collect();
        let line = 1 + text[..at].matches('\n').count();
        (line, numbers(&bare.join(" ")))
    };
    let lists = text.match_indices(REFUSES).map(read);
    lists.filter(|(_, numbers)| !numbers.is_empty()).collect()
}

/// The numbers at the head, with commas or `and` between them; a remark in brackets may follow each.
fn numbers(text: &str) -> Vec<String> {
    let mut found = vec![];
    let mut rest = text;
    loop {
        let digits = rest.len() - rest.trim_start_matches(|c: char| c.is_ascii_digit()).len();
        if digits == 0 {
            return found;
        }
        found.push(rest[..digits].to_string());
        rest = &rest[digits..];
        if rest.starts_with(" (") {
            rest = rest.split_once(')').map_or("", |(_, behind)| behind);
        }
        let next = rest.strip_prefix(", ").or(rest.strip_prefix(" and "));
        let Some(next) = next else { return found };
        rest = next;
    }
}

fn fault(list: &[String], numbering: &Numbering) -> Option<String> {
    let turn = |number: &String| number.parse().ok().and_then(|n| numbering.turn(n));
    if let Some(number) = list.iter().find(|number| turn(number).is_none()) {
        return Some(format!("no refusal has the number `{number}`"));
    }
    let falls = |two: &&[String]| turn(&two[0]) >= turn(&two[1]);
    let two = list.windows(2).find(falls)?;
    Some(format!(
        "{} stands behind {}, not by `turn`",
        two[1], two[0]
    ))
}

#[cfg(test)]
mod tests {
    use super::*;
    use crate::numbering::DEFINITIONS;

    const CODE: &str = "crates/shelf/src/lib.rt";
    const GIVEN: (&str, &str) = (
        DEFINITIONS,
        "number A = 1\nnumber B = 2\nnumber C = 3\nturn A = 1\nturn C = 2\nturn B = 3\n",
    );
    const TABLE: &str = "| call | arguments | refusals, in order |\n|---|---|---|\n";
    const RIGHT: &str = "// Refuses 1, 3 and 2.\n";

    fn told(path: &str, text: &str) -> (usize, Vec<String>) {
        let report = check(&Repository::of(&[GIVEN, (path, text)]));
        (report.passed, report.failures)
    }

    /// A right list and this one make one failure.
    fn wrong(list: &str, fault: &str) {
        let wanted = vec![format!("{CODE}:2: {fault}")];
        let text = format!("{RIGHT}// Refuses {list}.\n");
        assert_eq!(told(CODE, &text), (1, wanted));
    }

    #[test]
    fn lists_by_turn() {
        let more = "// Refuses 3 (of\n// either), 2.\n// Refuses 1, or 9.\n// Refuses it.\n";
        assert_eq!(told(CODE, &format!("{RIGHT}{more}")), (3, vec![]));
        let table =
            format!("{TABLE}| `join` | both | 1, 3, 2 |\n| `key` | it | |\n\n| `a` | b | c |\n");
        assert_eq!(told(CALLS, &table), (1, vec![]));
    }

    #[test]
    fn a_comment_with_another_order_or_number() {
        wrong("1, 2 and 3", "3 stands behind 2, not by `turn`");
        wrong("2 (so), 3", "3 stands behind 2, not by `turn`");
        wrong("1, 2,\n// 3", "3 stands behind 2, not by `turn`");
        wrong("1, 1", "1 stands behind 1, not by `turn`");
        wrong("1, 4", "no refusal has the number `4`");
    }

    #[test]
    fn a_row_or_the_wrapper_with_another_order() {
        let rows = "| `a` | b | 1 |\n| `a` | b | 2, 3 |\n| `a` | b | 1 and 3 |\n";
        let wanted = [
            "docs/CALLS.md:4: 3 stands behind 2, not by `turn`",
            "docs/CALLS.md:5: no refusal has the number `1 and 3`",
        ];
        assert_eq!(told(CALLS, &format!("{TABLE}{rows}")).1, wanted);
        let path = format!("{WRAPPER}/a.rs");
        let wanted = format!("{path}:2: 3 stands behind 2, not by `turn`");
        let text = "/// Refuses 1.\n/// Refuses 2,\n/// 3.\n";
        assert_eq!(told(&path, text).1, [wanted]);
    }

    #[test]
    fn where_nothing_is_looked_at_it_fails() {
        let none = "no list of a call's refusals was found";
        assert_eq!(told(CODE, "// none\n"), (0, vec![none.to_string()]));
    }
}
