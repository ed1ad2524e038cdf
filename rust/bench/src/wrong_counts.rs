//! What a refusal with 1 costs: a table of eight pivots with too many edges, a few or very many.
use crate::case::Case;
use crate::inputs::{record, Table, Xorshift, NO_EDGE};
use crate::sides::case;
use std::rc::Rc;

pub const CALLS: [&str; 3] = ["wf_edges", "translate_key", "list_table"];
pub const KEY: usize = 8;
pub const EDGES: [usize; 2] = [8, 65_536];
const PIVOTS: usize = 8;

/// The refusal's number; none of these calls is accepted.
fn number<T, R>(answer: Result<T, R>, number: fn(R) -> u32) -> usize {
    answer.err().map_or(0, number) as usize
}

fn cases_of(random: &mut Xorshift, count: usize) -> [Case; 3] {
    let mut table = Table::new(random, KEY, PIVOTS);
    let key = table.key_inside(random);
    table.edges = record(NO_EDGE, &[]).repeat(count).into();
    let pivots = Rc::clone(&table.pivots);
    let edges = Rc::clone(&table.edges);
    let (ours, theirs) = (joistdenim::Refusal::number, reference::Refusal::number);
    [
        Case::new(
            (CALLS[0], KEY, count),
            &[[Rc::clone(&pivots), Rc::clone(&edges)]],
            move |[p, e], []| number(joistdenim::wf_edges(p, e), ours),
            move |[p, e], []| number(reference::wf_edges(p, e), theirs),
            |_| [],
        ),
        Case::new(
            (CALLS[1], KEY, count),
            &[[pivots, edges, key]],
            move |[p, e, k], [dest]| number(joistdenim::translate_key(p, e, k, dest), ours),
            move |[p, e, k], [dest]| number(reference::translate_key(p, e, k, dest), theirs),
            |_| [0],
        ),
        case!((KEY, count), &[[table.input()]], list_table(input; dest), |len| len, |len| [len]),
    ]
}

pub fn cases(random: &mut Xorshift) -> Vec<Case> {
    let mut cases = vec![];
    for count in EDGES {
        cases.extend(cases_of(random, count));
    }
    cases
}
