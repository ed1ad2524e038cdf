//! The list of every input that T's is cut short to.
use crate::test_tables::t;
use crate::{list_table, Refusal};

#[test]
fn missing_bytes() {
    let (pivots, edges) = t();
    let whole = [&[0, 3][..], &pivots, &edges].concat();
    for len in 0..whole.len() {
        let mut dest = [7; 11];
        assert_eq!(list_table(&whole[..len], &mut dest), Ok(10));
        assert_eq!(dest, *b"refused\t1\n\x07");
        let mut short = [7; 9];
        assert_eq!(list_table(&whole[..len], &mut short), Err(Refusal::NoRoom));
        assert_eq!(short, [7; 9]);
    }
}
