//! The laws of two tables put together, on small tables.
use crate::cut_tests::{cut, translated, written};
use crate::test_tables::{max, no_edge, record, t};
use crate::*;
use Refusal::*;

type Table = (Vec<u8>, Vec<u8>);

fn joined(first: &Table, second: &Table) -> Result<Table, Refusal> {
    written(|p, e| join(&first.0, &first.1, &second.0, &second.1, p, e))
}

/// The cuts at a key, joined: the table where it is a pivot, else what its insertion leaves. Keys
/// translate as by the half that they are in.
fn laws(table: &Table, key: &[u8], keys: &[Vec<u8>]) -> bool {
    let [left, right] = [split_left, split_right].map(|split| cut(split, table, key));
    let (Ok(left), Ok(right)) = (left, right) else {
        return false;
    };
    let new = joined(&left, &right);
    match cut(insert_pivot, table, key) {
        Err(AlreadyPivot) => assert_eq!(new.as_ref(), Ok(table)),
        inserted => assert_eq!(new, inserted),
    }
    let new = new.unwrap();
    assert_eq!(wf_edges(&new.0, &new.1), Ok(()));
    for key in keys {
        let by_half = match [&left, &right].map(|half| bounded_key(&half.0, key)) {
            [Ok(true), Ok(false)] => translated(&left, key),
            [Ok(false), Ok(true)] => translated(&right, key),
            [Ok(false), Ok(false)] => Err(OutOfRange),
            other => panic!("{other:?}"),
        };
        assert_eq!(translated(&new, key), by_half);
    }
    true
}

#[test]
fn laws_of_small_tables() {
    let bytes = [0x00, 0x30, 0x31, 0x34, 0x35, 0xFE, 0xFF];
    let mut keys: Vec<Vec<u8>> = bytes.map(|b| vec![0x41, b]).to_vec();
    keys.extend(bytes.map(|b| vec![0x41, 0x31, b]));
    keys.extend(bytes.map(|b| vec![0xFF, b]));
    let to_max = [record(&[0xFF]), record(&[0xFF, 0xFE]), max()].concat();
    let mut taken = 0;
    for edge in [vec![], vec![0x43], vec![0x43; 63], vec![0x43; 64]] {
        for table in [
            (t().0, [record(&edge), no_edge()].concat()),
            (t().0, record(&edge).repeat(2)),
            (to_max.clone(), record(&edge).repeat(2)),
        ] {
            taken += keys.iter().filter(|key| laws(&table, key, &keys)).count();
        }
    }
    assert!(taken >= 100, "{taken}");
}
