//! The calls on tables.
use crate::case::Case;
use crate::inputs::{record, Table, Xorshift, MAX};
use crate::lent::Slices;
use crate::sides::case;
use joistdenim::{MAX_PIVOTS, MIN_PIVOTS, PAIR_SIZE, RECORD_SIZE};

pub const CALLS: [&str; 11] = [
    "wf_pivots",
    "wf_edges",
    "route",
    "translate_key",
    "split_left",
    "split_right",
    "translate",
    "translate_pivots",
    "translate_edges",
    "parent_keys_in_child_range",
    "list_table",
];
/// Below 64, so that an edge has room to grow.
pub const KEYS: [usize; 4] = [3, 8, 32, 60];
pub const PIVOTS: [usize; 3] = [MIN_PIVOTS, 8, MAX_PIVOTS];
/// Of a table that a pivot is put into, and that may have 64 then.
pub const PIVOTS_BEFORE: [usize; 3] = [MIN_PIVOTS, 8, MAX_PIVOTS - 1];
/// Of a table joined from two halves, of which the smallest have two pivots each.
pub const PIVOTS_JOINED: [usize; 3] = [3, 8, MAX_PIVOTS];
/// Few, so that large tables stay in the nearest caches too.
const TABLES: usize = 4;
const KEYS_PER_TABLE: usize = 4;

/// The bytes of so many pivots, and of one edge fewer.
fn both(count: usize) -> [usize; 2] {
    [count, count - 1].map(|count| count * RECORD_SIZE)
}

/// The calls that are lent a table alone, or a table and a key.
fn cases_of_key(random: &mut Xorshift, size: (usize, usize), tables: &[Table]) -> Vec<Case> {
    let (mut pivots, mut edges, mut routes, mut asked) = (vec![], vec![], vec![], vec![]);
    let mut lists = vec![];
    for table in tables {
        for _ in 0..KEYS_PER_TABLE {
            // The checks are asked as often as the others, so that their costs can be compared.
            pivots.push([table.pivots.clone()]);
            edges.push([table.pivots.clone(), table.edges.clone()]);
            lists.push([table.input()]);
            let key = table.key_inside(random);
            routes.push([table.pivots.clone(), key.clone()]);
            asked.push([table.pivots.clone(), table.edges.clone(), key]);
        }
    }
    let pair = |_| [PAIR_SIZE];
    let records = |count| [count * RECORD_SIZE];
    vec![
        case!(size, &pivots, wf_pivots(p;), |()| 0, |_| []),
        case!(size, &edges, wf_edges(p, e;), |()| 0, |_| []),
        case!(size, &routes, route(p, k;), |slot| slot, |_| []),
        case!(size, &asked, translate_key(p, e, k; dest), |len| len, |len| [len]),
        case!(size, &asked, split_left(p, e, k; dest_pivots, dest_edges), |count| count, both),
        case!(size, &asked, split_right(p, e, k; dest_pivots, dest_edges), |count| count, both),
        case!(size, &asked, translate(p, e, k; dest), |yes| usize::from(yes), pair),
        case!(size, &edges, translate_edges(p, e; dest), |count| count, records),
        case!(size, &lists, list_table(input; dest), |len| len, |len| [len]),
    ]
}

/// The calls that are lent more: a new prefix and an end, or a child of as many pivots.
fn cases_of_more(random: &mut Xorshift, size: (usize, usize), tables: &[Table]) -> Vec<Case> {
    let (mut renamed, mut families) = (vec![], vec![]);
    for table in tables {
        for _ in 0..KEYS_PER_TABLE {
            let prefix = table.prefix();
            let new = random.bytes(prefix.len()).into();
            renamed.push([table.pivots.clone(), prefix, new, record(MAX, &[])]);
            let child = Table::new(random, size.0, size.1);
            families.push([table.pivots.clone(), table.edges.clone(), child.pivots]);
        }
    }
    let slot = size.1 as u64 / 2 - 1;
    vec![
        case!(
            size,
            &renamed,
            translate_pivots(p, old, new, end; dest),
            |count| count,
            |count| [count * RECORD_SIZE]
        ),
        case!(
            size,
            &families,
            parent_keys_in_child_range(p, e, c; ; slot),
            |yes| usize::from(yes),
            |_| []
        ),
    ]
}

fn tables(random: &mut Xorshift, size: (usize, usize)) -> Vec<Table> {
    let tables = (0..TABLES).map(|_| Table::new(random, size.0, size.1));
    tables.collect()
}

fn cases_of(random: &mut Xorshift, size: (usize, usize)) -> Vec<Case> {
    let tables = tables(random, size);
    let mut cases = cases_of_key(random, size, &tables);
    cases.extend(cases_of_more(random, size, &tables));
    cases
}

pub fn cases(random: &mut Xorshift) -> Vec<Case> {
    let mut cases = vec![];
    for key in KEYS {
        for pivots in PIVOTS {
            cases.extend(cases_of(random, (key, pivots)));
        }
    }
    cases
}

/// A key put in as a pivot.
fn insertion(random: &mut Xorshift, size: (usize, usize)) -> Case {
    let mut asked = vec![];
    for table in tables(random, size) {
        for _ in 0..KEYS_PER_TABLE {
            let key = table.key_inside(random);
            asked.push([table.pivots.clone(), table.edges.clone(), key]);
        }
    }
    case!(size, &asked, insert_pivot(p, e, k; dest_pivots, dest_edges), |count| count, both)
}

pub fn insertions(random: &mut Xorshift) -> Vec<Case> {
    let mut cases = vec![];
    for key in KEYS {
        cases.extend(PIVOTS_BEFORE.map(|pivots| insertion(random, (key, pivots))));
    }
    cases
}

/// The halves of a table, cut at its middle pivot.
fn halves(table: &Table) -> Slices<4> {
    let place = table.pivots.len() / RECORD_SIZE / 2 * RECORD_SIZE;
    [
        table.pivots[..place + RECORD_SIZE].into(),
        table.edges[..place].into(),
        table.pivots[place..].into(),
        table.edges[place..].into(),
    ]
}

/// Two tables put together.
fn join(random: &mut Xorshift, size: (usize, usize)) -> Case {
    let asked: Vec<_> = tables(random, size).iter().map(halves).collect();
    case!(size, &asked, join(p1, e1, p2, e2; dest_pivots, dest_edges), |count| count, both)
}

pub fn joins(random: &mut Xorshift) -> Vec<Case> {
    let mut cases = vec![];
    for key in KEYS {
        cases.extend(PIVOTS_JOINED.map(|pivots| join(random, (key, pivots))));
    }
    cases
}
