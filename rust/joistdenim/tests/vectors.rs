//! The cases of the folder `vectors`, through the safe calls.
use joistdenim::*;
use std::cmp::Ordering;
use vectors::{Case, Outcome};

/// What a call is lent in one case; what it doesn't take is empty.
struct Lent<'a> {
    a: &'a [u8],
    b: &'a [u8],
    c: &'a [u8],
    d: &'a [u8],
    e: &'a [u8],
    number: u64,
    first: &'a mut [u8],
    second: &'a mut [u8],
}

/// An answer as numbers, none to two.
trait Told {
    fn numbers(self) -> Vec<i64>;
}

impl Told for () {
    fn numbers(self) -> Vec<i64> {
        vec![]
    }
}

impl Told for bool {
    fn numbers(self) -> Vec<i64> {
        vec![i64::from(self)]
    }
}

impl Told for usize {
    fn numbers(self) -> Vec<i64> {
        vec![self as i64]
    }
}

impl Told for Ordering {
    fn numbers(self) -> Vec<i64> {
        vec![self as i64]
    }
}

/// A part of what was lent: C is told its length.
impl Told for &[u8] {
    fn numbers(self) -> Vec<i64> {
        vec![self.len() as i64]
    }
}

/// Of this part C is told how many entries it has.
fn slot_entries(pivots: &[u8], bucket: &[u8], index: &[u8], slot: u64) -> Result<usize, Refusal> {
    let part = joistdenim::slot_entries(pivots, bucket, index, slot)?;
    Ok(part.len() / ENTRY_SIZE)
}

/// The call of a name, with what it takes of what is lent.
macro_rules! calls {
    ($($name:ident($($lent:ident),*);)*) => {
        fn call(name: &str, lent: Lent) -> Result<Vec<i64>, Refusal> {
            match name {
                $(stringify!($name) => $name($(lent.$lent),*).map(Told::numbers),)*
                _ => panic!("no call {name}"),
            }
        }
    };
}

calls! {
    compare(a, b);
    pivot_key(a);
    entry_key(a);
    change_prefix(a, b, c, first);
    pivot_lcp(a, b);
    shortest_uncommon_prefix(a, first);
    wf_pivots(a);
    wf_edges(a, b);
    contains_all_keys(a);
    contains_range(a, b, c);
    bounded_key(a, b);
    valid_left_cut_off_key(a, b);
    pivot_insertable(a, number, b);
    get_key(a, number);
    init_pivot_table(first);
    route(a, b);
    cutoff_for_left(a, b);
    cutoff_for_right(a, b);
    split_left(a, b, c, first, second);
    split_right(a, b, c, first, second);
    insert_pivot(a, b, c, first, second);
    join(a, b, c, d, first, second);
    translate(a, b, c, first);
    translate_key(a, b, c, first);
    reverse_pair(a, first);
    apply_pair(a, b, first);
    compose_pairs(a, b, first);
    translate_pivot_pair(a, b, c, d, first);
    translate_pivots(a, b, c, d, first);
    translate_edges(a, b, first);
    parent_keys_in_child_range(a, b, c, number);
    translate_bucket(a, b, c, first);
    translate_bucket_will_fit(a, b, c, number);
    build_index(a, b, first);
    check_index(a, b, c);
    slot_entries(a, b, c, number);
    cut_index_left(a, b, c, d, first, second);
    cut_index_right(a, b, c, d, first, second);
    translate_index(a, b, c, d, e, first, second);
    list_table(a, first);
}

/// What the call answers, and what it leaves in destinations filled with this byte.
fn run(case: &Case, filling: u8) -> (Result<Vec<i64>, Refusal>, [Vec<u8>; 2]) {
    let room = |i: usize| vec![filling; case.rooms.get(i).copied().unwrap_or(0)];
    let mut dests = [0, 1].map(room);
    let slice = |i: usize| case.slices.get(i).map_or(&[][..], Vec::as_slice);
    let [first, second] = dests.each_mut().map(Vec::as_mut_slice);
    let lent = Lent {
        a: slice(0),
        b: slice(1),
        c: slice(2),
        d: slice(3),
        e: slice(4),
        number: case.number.unwrap_or(0),
        first,
        second,
    };
    (call(&case.call, lent), dests)
}

/// What must be left: what is written at the head, and the filling after it.
fn wanted(case: &Case, filling: u8) -> (Result<Vec<i64>, u32>, [Vec<u8>; 2]) {
    let (told, written) = match &case.outcome {
        Outcome::Refused(number) => (Err(*number), &[][..]),
        Outcome::Taken { answers, written } => (Ok(answers.clone()), &written[..]),
    };
    let left = [0, 1].map(|i| {
        let mut left = written.get(i).cloned().unwrap_or_default();
        left.resize(case.rooms.get(i).copied().unwrap_or(0), filling);
        left
    });
    (told, left)
}

#[test]
fn every_case() {
    let topics = vectors::topics();
    assert!(!topics.is_empty());
    for topic in topics {
        for case in vectors::cases(&topic) {
            for filling in [0xA5, 0x5A] {
                let (told, left) = run(&case, filling);
                let got = (told.map_err(Refusal::number), left);
                let name = format!("{topic}, line {}: {}: {}", case.line, case.call, case.name);
                assert!(got == wanted(&case, filling), "{name}: {:?}", got.0);
            }
        }
    }
}
