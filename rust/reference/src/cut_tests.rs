//! The plain cut, which no call of the boundary is, and two cuts in a row.
use crate::test_tables::{no_edge, record, t, table};
use crate::*;
use Refusal::*;

pub type Split = fn(&[u8], &[u8], &[u8], &mut [u8], &mut [u8]) -> Result<usize, Refusal>;

/// What a call answers, and the pivots and edges that it leaves in destinations with room to
/// spare. No other byte may change.
pub fn written(
    call: impl FnOnce(&mut [u8], &mut [u8]) -> Result<usize, Refusal>,
) -> Result<(Vec<u8>, Vec<u8>), Refusal> {
    let room = MAX_PIVOTS * RECORD_SIZE;
    let (mut pivots, mut edges) = (vec![7; room], vec![9; room]);
    let result = call(&mut pivots, &mut edges);
    let written = result.map_or((0, 0), |pivots| (66 * pivots, 66 * (pivots - 1)));
    assert!(pivots[written.0..].iter().all(|&b| b == 7));
    assert!(edges[written.1..].iter().all(|&b| b == 9));
    pivots.truncate(written.0);
    edges.truncate(written.1);
    result.map(|_| (pivots, edges))
}

pub fn cut(
    split: Split,
    table: &(Vec<u8>, Vec<u8>),
    key: &[u8],
) -> Result<(Vec<u8>, Vec<u8>), Refusal> {
    written(|pivots, edges| split(&table.0, &table.1, key, pivots, edges))
}

pub fn translated(table: &(Vec<u8>, Vec<u8>), key: &[u8]) -> Result<Vec<u8>, Refusal> {
    let mut dest = [7; 70];
    let length = translate_key(&table.0, &table.1, key, &mut dest);
    assert!(dest[length.unwrap_or(0)..].iter().all(|&b| b == 7));
    length.map(|length| dest[..length].to_vec())
}

#[test]
fn the_plain_cut_of_t() {
    let (p, e) = t();
    let cut = plain_cut(&p, &e, &[0x41, 0x34], &[0x41, 0x36]).unwrap();
    let pivots = [[0x41, 0x34], [0x41, 0x35], [0x41, 0x36]];
    assert_eq!(cut.pivots, pivots.map(|pivot| pivot.to_vec()));
    assert_eq!(cut.edges, [Some(vec![0x43, 0x34]), None]);
    let cut = plain_cut(&p, &e, &[0x41, 0x31, 0], &[0x41, 0x31, 9]).unwrap();
    assert_eq!(cut.edges, [Some(vec![0x43, 0x31])]);
    let at = |l: &[u8], r: &[u8]| plain_cut(&p, &e, l, r).unwrap_err();
    assert_eq!(at(&[0x41, 0x31], &[0x41, 0x31]), NotBelow);
    assert_eq!(at(&[0x41], &[0x42]), OutOfRange);
    assert_eq!(at(&[0x41, 0x30], &[0x42, 0]), OutOfRange);
}

/// T with a first edge of 64 bytes: the plain cut at 41 34 and 42 has one of 65, and the cut
/// that makes it is refused.
#[test]
fn the_plain_cut_has_edges_of_any_length() {
    let long = (t().0, [record(&[0x43; 64]), no_edge()].concat());
    let plain = plain_cut(&long.0, &long.1, &[0x41, 0x34], &[0x42]).unwrap();
    let edge = [vec![0x43; 64], vec![0x34]].concat();
    assert_eq!(plain.edges, [Some(edge), None]);
    assert_eq!(cut(split_right, &long, &[0x41, 0x34]), Err(TooLong));
    let left = cut(split_left, &long, &[0x42]).unwrap();
    assert_eq!(cut(split_right, &left, &[0x41, 0x34]), Err(TooLong));
}

#[test]
fn two_cuts_of_t_in_either_order() {
    let (l, r) = ([0x41, 0x34], [0x41, 0x36]);
    let right_first = cut(split_right, &t(), &l).and_then(|rest| cut(split_left, &rest, &r));
    let left_first = cut(split_left, &t(), &r).and_then(|rest| cut(split_right, &rest, &l));
    let pivots = table(&[&l, &[0x41, 0x35], &r]);
    let edges = [record(&[0x43, 0x34]), no_edge()].concat();
    assert_eq!(right_first, Ok((pivots, edges)));
    assert_eq!(left_first, right_first);
}
