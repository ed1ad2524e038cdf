//! All splits of small tables and all pairs of them; and destinations of every length.
use super::calls::{slices, JOIN};
use crate::asked::Asked;
use crate::cuts::records::Records;
use crate::cuts::small::{each_edges, tables, SHARED};
use crate::dests::around;
use crate::group::{Group, Wanted};
use crate::inputs::record;
use crate::table_inputs::{absent, distinct, edges_of_t, pivots_of_t, rising};

/// Room for any two of the small tables, and a byte more.
const ROOM: [usize; 2] = [5 * 66 + 1, 4 * 66 + 1];

/// Every small table with every choice of edges, up to and from each of its pivots: the table is
/// what they give, where it is one. The ends leave a pivot alone, which is 1.
pub fn splits(group: &mut Group) {
    let edges: [&[u8]; 4] = [&[], &[0x43], &[0x44; 63], &[0x45; 64]];
    for shared in SHARED {
        for mut table in tables(shared) {
            each_edges(&mut table, &edges, |table| {
                let whole = Records::of(table);
                let good = reference::wf_edges(&whole.pivots, &whole.edges).is_ok();
                let pivots = [table.slots() as i64 + 1];
                for place in 0..=table.slots() {
                    let halves = whole.halves(place);
                    let lent = slices(halves.each_ref());
                    let wanted = match (0 < place && place < table.slots(), good) {
                        (true, true) => Wanted::Answer(&pivots, [&whole.pivots, &whole.edges]),
                        (true, false) => Wanted::Refusal(4),
                        (false, _) => Wanted::Refusal(1),
                    };
                    group.expect(&JOIN, &Asked::with_dests(&lent, ROOM), &wanted);
                }
            });
        }
    }
}

/// All small tables, each slot with this edge or none.
fn all_with(shared: &[u8], edge: &[u8]) -> Vec<Records> {
    let mut all = vec![];
    for mut table in tables(shared) {
        each_edges(&mut table, &[edge], |table| all.push(Records::of(table)));
    }
    all
}

/// Whether the first ends with the pivot that the second begins with.
fn meet([first, second]: [&Records; 2]) -> bool {
    first.pivots.ends_with(&second.pivots[..66])
}

/// Every pair of them, with other edges in the second. Most don't meet.
pub fn pairs(group: &mut Group) {
    let mut sorts = [0; 2];
    for shared in SHARED {
        let firsts = all_with(shared, &[0x44; 63]);
        let seconds = all_with(shared, &[0x45]);
        for first in &firsts {
            for second in &seconds {
                let lent = slices([first, second]);
                group.case(&JOIN, &Asked::with_dests(&lent, ROOM));
                sorts[usize::from(meet([first, second]))] += 1;
            }
        }
    }
    let [apart, meeting] = sorts;
    group.check(100 * meeting >= apart, || format!("only {meeting} meet"));
}

/// Those that meet, with destinations around what is written.
pub fn destinations(group: &mut Group) {
    let [_, shared] = SHARED;
    let seconds = all_with(shared, &[0x45; 64]);
    for first in &all_with(shared, &[]) {
        for second in seconds.iter().filter(|second| meet([first, second])) {
            around(group, &JOIN, &slices([first, second]));
        }
    }
}

/// Halves of T, of 5 pivots and of 64.
fn some_halves() -> Vec<[Records; 2]> {
    let t = (pivots_of_t(), edges_of_t(), 1);
    let few = (
        rising(5),
        [&record(&[0x43])[..], &absent(2), &record(&[0x44; 64])].concat(),
        3,
    );
    let most = (rising(64), absent(63), 32);
    let wholes = [t, few, most].into_iter();
    wholes
        .map(|(pivots, edges, place)| Records { pivots, edges }.halves(place))
        .collect()
}

/// Every length of one destination beside several of the other.
pub fn every_length(group: &mut Group) {
    for [first, second] in &some_halves() {
        let lent = slices([first, second]);
        for len in (0..=400).chain(4100..=4240) {
            for other in [0, 65, 66, 131, 132, 198, 264, 330, 4158, 4224] {
                group.case(&JOIN, &Asked::with_dests(&lent, [len, other]));
                group.case(&JOIN, &Asked::with_dests(&lent, [other, len]));
            }
        }
    }
}

/// So many pivots, each edge another one.
pub fn many(count: usize) -> Records {
    Records {
        pivots: rising(count),
        edges: distinct(count - 1),
    }
}

/// 63, 64 and 65 pivots up to and from each of them but the ends; and up to one and from the next,
/// which don't meet.
pub fn large(group: &mut Group) {
    for count in 63..=65 {
        let whole = many(count);
        for place in 1..count - 1 {
            for from in [place, place + 1] {
                let lent = [&whole.up_to(place), &whole.from(from)];
                around(group, &JOIN, &slices(lent));
            }
        }
    }
}
