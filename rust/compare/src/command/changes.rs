//! `cut` and `insert`: the table is what the reference writes.
use super::expect;
use super::wanted::{key_text, parts, written, Wanted};
use crate::cuts::random::{each_good, each_spoiled};
use crate::cuts::small;
use crate::group::Group;
use crate::list_inputs::joined;
use reference::{insert_pivot, join, split_left, split_right, Refusal};

/// A call that writes a table: pivots, edges and a key; then the destinations.
type Writes = fn(&[u8], &[u8], &[u8], &mut [u8], &mut [u8]) -> Result<usize, Refusal>;

/// Each command and its call.
const COMMANDS: [(&[&str], Writes); 3] = [
    (&["cut", "left"], split_left),
    (&["cut", "right"], split_right),
    (&["insert"], insert_pivot),
];

fn changed(call: Writes, input: &[u8], key: &[u8]) -> Wanted {
    let [pivots, edges] = parts(input);
    written(|dest_pivots, dest_edges| call(pivots, edges, key, dest_pivots, dest_edges))
}

/// Each command on a table and a key; and how many were done and refused.
fn each_command(group: &mut Group, seen: &mut [usize; 2], [pivots, edges, key]: [&[u8]; 3]) {
    let input = joined(pivots, edges);
    let text = key_text(key);
    for (words, call) in COMMANDS {
        let wanted = changed(call, &input, key);
        let arguments = [words, &["-", &text]].concat();
        expect(group, &arguments, &input, &wanted);
        seen[usize::from(wanted.is_err())] += 1;
    }
}

/// All small keys and all small tables with edges at the limit.
pub fn small(group: &mut Group) {
    let mut seen = [0; 2];
    small::each_good(|table, key, _| {
        each_command(group, &mut seen, [&table.pivots, &table.edges, key]);
    });
    group.sorts(&seen);
}

pub fn random(group: &mut Group, count: usize) {
    let mut seen = [0; 2];
    each_good(count, |slices| each_command(group, &mut seen, slices));
    group.sorts(&seen);
}

pub fn spoiled(group: &mut Group, count: usize) {
    let mut seen = [0; 2];
    each_spoiled(count, |slices| each_command(group, &mut seen, slices));
    let [done, refused] = seen;
    group.check(100 * done >= refused, || format!("only {done} are done"));
}

/// What cuts, insertions and joins of the reference leave of so many random tables.
pub fn each_changed(count: usize, body: &mut dyn FnMut(&[u8])) {
    each_good(count, |[pivots, edges, key]| {
        let input = joined(pivots, edges);
        let changed = COMMANDS.map(|(_, call)| changed(call, &input, key));
        changed.iter().flatten().for_each(|table| body(table));
        if let [Ok(left), Ok(right), _] = &changed {
            let ([p1, e1], [p2, e2]) = (parts(left), parts(right));
            let joined = written(|pivots, edges| join(p1, e1, p2, e2, pivots, edges));
            joined.iter().for_each(|table| body(table));
        }
    });
}
