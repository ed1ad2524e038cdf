//! `list` and `table`: the list of a table is the reference's, and the table of a list has the
//! bytes that were listed.
use super::changes::each_changed;
use super::wanted::{list_text, refusal_in};
use super::{command, expect, text};
use crate::cuts::small::each_good_table;
use crate::group::{test, Group, Line, Test};
use crate::inputs::Xorshift;
use crate::list::calls::LIST_TABLE;
use crate::list::{laws, random, small};
use crate::list_inputs::joined;
use crate::random::slices;
use crate::table_inputs::{absent, distinct, rising};
use std::collections::HashSet;
use std::sync::Mutex;
use vectors::Outcome;

const SEED: u64 = 20_420_627;

/// The refusal of an input in which no record is at fault.
const SHAPE: u32 = 1;

/// Hands inputs to a body, one by one.
type Each = fn(&mut dyn FnMut(&[u8]));

/// Inputs of one sort.
struct Sort {
    name: &'static str,
    /// Whether at least one in twenty is a table, and one in twenty is none.
    mixed: bool,
    each: Each,
}

const SORTS: [Sort; 8] = [
    sort("usual and near tables", true, |body| {
        laws::each_input(3_000, body)
    }),
    sort("small tables", true, |body| small::each_of_all_edges(body)),
    sort("every cut and count", false, |body| {
        small::each_cut_short(body)
    }),
    sort("edges at the limit", false, each_at_limit),
    sort("any tables, random", true, each_of_any),
    sort("random", false, |body| random::each_good(10_000, body)),
    sort("random with faults", true, |body| {
        random::each_spoiled(30_000, body)
    }),
    sort("cut, inserted and joined", false, |body| {
        each_changed(2_000, body)
    }),
];

const fn sort(name: &'static str, mixed: bool, each: Each) -> Sort {
    Sort { name, mixed, each }
}

pub fn tests() -> Vec<Test> {
    let mut tests = vec![test("command: list and table, the vectors", |group| {
        for case in vectors::cases("list") {
            if let Outcome::Taken { written, .. } = &case.outcome {
                let text = str::from_utf8(&written[0]).expect("a list is a text");
                both_ways(group, &case.slices[0], text);
            }
        }
    })];
    for sort in SORTS {
        let name = format!("command: list and table, {}", sort.name);
        tests.push(test(name, move |group| each_of(group, &sort)));
    }
    tests
}

/// The tables that were looked at, by their hashes.
pub type Seen = Mutex<HashSet<u64>>;

/// Every table that a case of a group lent to a call, once: those that one thread came by first.
#[derive(Default)]
pub struct EveryTable {
    group: Group,
    sorts: [usize; 2],
}

impl EveryTable {
    pub fn of(&mut self, group: &Group, seen: &Seen) {
        for (hash, input) in group.tables() {
            if seen.lock().expect("no panic").insert(hash) {
                let sort = both_ways(&mut self.group, input, &list_text(input));
                self.sorts[usize::from(sort)] += 1;
            }
        }
    }

    /// What another thread came by, too.
    pub fn and(mut self, other: EveryTable) -> Self {
        self.group.take(other.group);
        self.sorts = [0, 1].map(|sort| self.sorts[sort] + other.sorts[sort]);
        self
    }

    pub fn line(mut self) -> Line {
        self.group.sorts(&self.sorts);
        self.group
            .line("command: list and table, every table that a call was lent")
    }
}

/// The inputs of all sorts.
pub fn each_input(mut body: impl FnMut(&[u8])) {
    SORTS.iter().for_each(|sort| (sort.each)(&mut body));
}

/// All small tables with edges at the limit, and the largest ones.
fn each_at_limit(body: &mut dyn FnMut(&[u8])) {
    each_good_table(|table, _| body(&joined(&table.pivots, &table.edges)));
    for edges in [absent(63), distinct(63)] {
        body(&joined(&rising(64), &edges));
    }
}

fn each_of_any(body: &mut dyn FnMut(&[u8])) {
    let mut random = Xorshift::new(SEED);
    for _ in 0..60_000 {
        body(&slices(&mut random, &LIST_TABLE)[0]);
    }
}

fn each_of(group: &mut Group, sort: &Sort) {
    let mut seen = [0; 2];
    (sort.each)(&mut |input| {
        let sort = both_ways(group, input, &list_text(input));
        seen[usize::from(sort)] += 1;
    });
    if sort.mixed {
        group.sorts(&seen);
    }
}

/// An input and its text, from one to the other; and whether it is a table.
fn both_ways(group: &mut Group, input: &[u8], list: &str) -> bool {
    if let Some(number) = refusal_in(list) {
        let ran = expect(group, &["list", "-"], input, &Err(number));
        // Which record, and what is wrong with it more than that it is refused.
        let told = ran.errors.contains(" at byte ") && !ran.errors.contains("it is malformed");
        let told = told || number == SHAPE;
        group.check(told, || text(&["list", "-"], input, &ran));
        no_list(group, list);
        return false;
    }
    let (listed, table) = (Ok(list.into()), Ok(input.to_vec()));
    expect(group, &["list", "-"], input, &listed);
    let made = expect(group, &["table"], list.as_bytes(), &table).output;
    expect(group, &["list", "-", "-o", "-"], &made, &listed);
    let named = short("left\tedge\n", list);
    for short in [short("", list), named] {
        expect(group, &["table", "-"], short.as_bytes(), &table);
    }
    let printed = Ok(printed_short(list).into_bytes());
    let short = expect(group, &["list", "--short", "-"], input, &printed).output;
    expect(group, &["table"], &short, &table);
    for options in [
        &["list", "--text", "-"][..],
        &["list", "--text", "--short", "-"],
    ] {
        expect(group, &["table"], &command(options, input).output, &table);
    }
    true
}

/// The text of a refusal is no list.
fn no_list(group: &mut Group, list: &str) {
    let ran = command(&["table"], list.as_bytes());
    let unread = ran.errors.starts_with("joistdenim: ") && ran.errors.lines().count() == 1;
    group.check(ran.status == 2 && ran.output.is_empty() && unread, || {
        text(&["table"], list.as_bytes(), &ran)
    });
}

/// The short form behind a line of names or none, with spaces, comments and blank lines.
fn short(names: &str, list: &str) -> String {
    let (mut text, mut end) = (String::new(), "");
    text.extend([names, "# Left bounds and edges.\n\n"]);
    for [slot, left, right, _, edge] in slots(list) {
        text.extend([left, "  ", edge, " # slot ", slot, "\n"]);
        end = right;
    }
    text.extend([" \n", end]);
    text
}

/// The short form as it is printed, with what each edge replaces.
fn printed_short(list: &str) -> String {
    let (mut text, mut end) = (String::from("left\tedge\n"), "");
    for [_, left, right, shared, edge] in slots(list) {
        text.extend([left, "\t"]);
        match edge {
            "-" => text.push('-'),
            _ => text.extend([shared, ">", edge]),
        }
        text.push('\n');
        end = right;
    }
    text.extend([end, "\n"]);
    text
}

/// The fields of each line of a list.
fn slots(list: &str) -> impl Iterator<Item = [&str; 5]> {
    list.lines().skip(1).map(|line| {
        let mut fields = line.split('\t');
        let slot = [(); 5].map(|()| fields.next().expect("a line has five fields"));
        assert_eq!(fields.next(), None, "a line has five fields");
        slot
    })
}
