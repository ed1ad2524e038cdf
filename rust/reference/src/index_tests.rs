//! What an index beside a bucket means, on small tables and buckets.
use crate::test_tables::{bucket, no_edge, t};
use crate::*;
use Refusal::*;

type Cut = fn(&[u8], &[u8], &[u8], &[u8], &mut [u8], &mut [u8]) -> Result<usize, Refusal>;

fn built(pivots: &[u8], bucket: &[u8]) -> Result<Vec<u8>, Refusal> {
    let mut dest = [7; 2 * MAX_PIVOTS + 1];
    let total = build_index(pivots, bucket, &mut dest);
    let written = total.map_or(0, |_| PLACE_SIZE * pivots.len() / RECORD_SIZE);
    assert!(dest[written..].iter().all(|&b| b == 7));
    assert!(total.is_err() || total == Ok(bucket.len() / ENTRY_SIZE));
    total.map(|_| dest[..written].to_vec())
}

/// What a call leaves in two destinations with room to spare: entries, and so many places.
fn written(
    places: usize,
    call: impl FnOnce(&mut [u8], &mut [u8]) -> Result<usize, Refusal>,
) -> Result<(Vec<u8>, Vec<u8>), Refusal> {
    let (mut entries, mut index) = (vec![7; MAX_ENTRIES * ENTRY_SIZE], vec![9; 130]);
    let total = call(&mut entries, &mut index);
    let ends = total.map_or((0, 0), |n| (n * ENTRY_SIZE, places * PLACE_SIZE));
    assert!(entries[ends.0..].iter().all(|&b| b == 7));
    assert!(index[ends.1..].iter().all(|&b| b == 9));
    entries.truncate(ends.0);
    index.truncate(ends.1);
    total.map(|_| (entries, index))
}

/// A cut with the right index, which leaves so many places.
fn cut(
    cut: Cut,
    pivots: &[u8],
    bucket: &[u8],
    key: &[u8],
    places: usize,
) -> Result<(Vec<u8>, Vec<u8>), Refusal> {
    let index = built(pivots, bucket)?;
    written(places, |b, i| cut(pivots, bucket, &index, key, b, i))
}

/// Of all keys in turn: the cuts at one have each entry exactly once, and the index that the cut
/// table gives them; and slots hold what is routed to them.
#[test]
fn cuts_belong_to_the_cut_table() {
    let keys: Vec<Vec<u8>> = (0x2E..0x38).map(|b| vec![0x41, b]).collect();
    let inside: Vec<&[u8]> = keys[2..].iter().step_by(2).map(|key| &key[..]).collect();
    let ((pivots, _), bucket) = (t(), bucket(&inside));
    let right_index = built(&pivots, &bucket).unwrap();
    for key in &inside {
        let slot = route(&pivots, key).unwrap() as u64;
        let part = slot_entries(&pivots, &bucket, &right_index, slot).unwrap();
        assert!(part
            .as_chunks()
            .0
            .iter()
            .any(|entry: &[u8; 70]| entry_key(entry) == Ok(key)));
    }
    for key in &keys {
        let mut halves = vec![];
        for (split, by) in [
            (
                split_left as fn(&[u8], &[u8], &[u8], &mut [u8], &mut [u8]) -> _,
                cut_index_left as Cut,
            ),
            (split_right, cut_index_right),
        ] {
            let (mut p, mut e) = ([0; 264], [0; 198]);
            let Ok(count) = split(&pivots, &no_edge().repeat(2), key, &mut p, &mut e) else {
                assert_eq!(cut(by, &pivots, &bucket, key, 0), Err(OutOfRange));
                continue;
            };
            let (kept, places) = cut(by, &pivots, &bucket, key, count).unwrap();
            assert_eq!(built(&p[..66 * count], &kept), Ok(places));
            halves.push(kept);
        }
        assert!(halves.len() < 2 || halves.concat() == bucket);
    }
}
