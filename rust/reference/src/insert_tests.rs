//! The laws of a key that is put in as a pivot, on small tables.
use crate::cut_tests::{cut, translated};
use crate::test_tables::{max, no_edge, record, t};
use crate::*;
use Refusal::*;

type Table = (Vec<u8>, Vec<u8>);

/// T with another first edge.
fn t_with(edge: &[u8]) -> Table {
    (t().0, [record(edge), no_edge()].concat())
}

/// Each key goes where it went, and cuts at the new pivot leave what they left.
fn laws(table: &Table, key: &[u8], keys: &[Vec<u8>]) -> bool {
    let [left, right] = [split_left, split_right].map(|split| cut(split, table, key));
    let new = match cut(insert_pivot, table, key) {
        Err(OutOfRange | AlreadyPivot) => return false,
        Err(refusal) => {
            assert!([left, right].contains(&Err(refusal)));
            return false;
        }
        Ok(new) => new,
    };
    assert_eq!(wf_edges(&new.0, &new.1), Ok(()));
    assert!(left.is_ok() && right.is_ok());
    assert_eq!(cut(split_left, &new, key), left);
    assert_eq!(cut(split_right, &new, key), right);
    for key in keys {
        assert_eq!(translated(&new, key), translated(table, key));
    }
    true
}

#[test]
fn laws_of_small_tables() {
    let bytes = [0x00, 0x30, 0x31, 0x34, 0xFE, 0xFF];
    let mut keys: Vec<Vec<u8>> = bytes.map(|b| vec![0x41, b]).to_vec();
    keys.extend(bytes.map(|b| vec![0x41, 0x31, b]));
    keys.extend(bytes.map(|b| vec![0xFF, b]));
    keys.push([vec![0x41, 0x31], vec![0x07; 62]].concat());
    let to_max = [record(&[0xFF]), record(&[0xFF, 0xFE]), max()].concat();
    let mut taken = 0;
    for edge in [vec![], vec![0x43], vec![0x43; 63], vec![0x43; 64]] {
        for table in [
            t_with(&edge),
            (t().0, record(&edge).repeat(2)),
            (to_max.clone(), record(&edge).repeat(2)),
        ] {
            taken += keys.iter().filter(|key| laws(&table, key, &keys)).count();
        }
    }
    assert!(taken >= 100, "{taken}");
}
