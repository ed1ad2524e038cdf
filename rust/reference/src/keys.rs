//! Keys and order: compare, the key of a record or an entry, change of prefix, the prefix of a range
//! and the upper bound of a prefix.
use crate::entry::{one_entry, Entry};
use crate::image::Image;
use crate::range_prefix::range_prefix;
use crate::record::{element, key, one_record, short, Element};
use crate::refusal::Refusal;
use crate::upper_bound::upper_bound;
use std::cmp::Ordering;

/// The order of two elements.
pub fn compare(a: &[u8], b: &[u8]) -> Result<Ordering, Refusal> {
    let (a, b) = (one_record(a)?, one_record(b)?);
    Ok(element(a)?.cmp(&element(b)?))
}

/// The key of a pivot record; the marks are wrong there.
pub fn pivot_key(record: &[u8]) -> Result<&[u8], Refusal> {
    key(one_record(record)?)
}

/// The key of an entry.
pub fn entry_key(entry: &[u8]) -> Result<&[u8], Refusal> {
    let entry = Entry::read(one_entry(entry)?)?;
    Ok(entry.key)
}

/// Writes the key with the new prefix in place of the old one and answers its length.
pub fn change_prefix(
    key: &[u8],
    old: &[u8],
    new: &[u8],
    dest: &mut [u8],
) -> Result<usize, Refusal> {
    let (key, old, new) = (short(key)?, short(old)?, short(new)?);
    let image = Image::of(key, old, new)?;
    image.fit()?;
    image.put(dest)
}

/// The prefix of the range from a left key up to a right element.
pub fn pivot_lcp<'a>(left: &'a [u8], right: &[u8]) -> Result<&'a [u8], Refusal> {
    let right = one_record(right)?;
    Ok(range_prefix(short(left)?, element(right)?))
}

/// Writes the upper bound of a prefix, one record, and answers 1.
pub fn shortest_uncommon_prefix(prefix: &[u8], dest: &mut [u8]) -> Result<usize, Refusal> {
    match upper_bound(short(prefix)?) {
        Some(bound) => Element::Key(&bound).put(dest)?,
        None => Element::Max.put(dest)?,
    }
    Ok(1)
}

#[cfg(test)]
mod tests {
    use super::*;
    use crate::entry::ENTRY_SIZE;
    use crate::record::{MAX_LEN, RECORD_SIZE};

    #[test]
    fn orders_by_first_difference_then_length_then_max() {
        let record = |key: &[u8]| {
            let mut record = [0; RECORD_SIZE];
            record[1] = key.len() as u8;
            record[2..2 + key.len()].copy_from_slice(key);
            record
        };
        let mut max = [0; RECORD_SIZE];
        max[..2].fill(0xFF);
        let rising = [
            record(&[]),
            record(&[0]),
            record(&[0, 0]),
            record(&[0x41, 0xFF]),
            record(&[0x42]),
            record(&[0xFF; MAX_LEN]),
            max,
        ];
        for (i, a) in rising.iter().enumerate() {
            for (j, b) in rising.iter().enumerate() {
                assert_eq!(compare(a, b), Ok(i.cmp(&j)));
            }
        }
    }

    #[test]
    fn one_of_any_argument_comes_before_two() {
        let malformed = [1; RECORD_SIZE];
        assert_eq!(
            compare(&malformed, &[0; RECORD_SIZE - 1]),
            Err(Refusal::Shape)
        );
        assert_eq!(
            compare(&malformed, &[0; RECORD_SIZE]),
            Err(Refusal::Malformed)
        );
    }

    #[test]
    fn refuses_a_change_in_the_order_of_causes() {
        let mut dest = [7; MAX_LEN];
        let long = [1; MAX_LEN + 1];
        let mut change = |key, old, new, room| change_prefix(key, old, new, &mut dest[..room]);
        assert_eq!(change(&[1], &[2], &long, 0), Err(Refusal::Malformed));
        assert_eq!(change(&[1; 9], &[2], &[1; 60], 0), Err(Refusal::NotPrefix));
        assert_eq!(change(&[1; 9], &[1], &[1; 57], 0), Err(Refusal::TooLong));
        assert_eq!(
            change(&[1; 9], &[1], &[1; 56], MAX_LEN - 1),
            Err(Refusal::NoRoom)
        );
        assert_eq!(change(&[1; 9], &[1], &[1; 56], MAX_LEN), Ok(MAX_LEN));
    }

    #[test]
    fn an_entry_has_its_size_exactly() {
        assert_eq!(entry_key(&[0; ENTRY_SIZE]), Ok(&[][..]));
        assert_eq!(entry_key(&[0; RECORD_SIZE]), Err(Refusal::Shape));
        assert_eq!(entry_key(&[0; ENTRY_SIZE + 1]), Err(Refusal::Shape));
        assert_eq!(entry_key(&[1; ENTRY_SIZE]), Err(Refusal::Malformed));
    }

    #[test]
    fn shape_of_right_before_length_of_left() {
        let long = [0; MAX_LEN + 1];
        assert_eq!(pivot_lcp(&long, &[0; RECORD_SIZE - 1]), Err(Refusal::Shape));
        assert_eq!(pivot_lcp(&long, &[0; RECORD_SIZE]), Err(Refusal::Malformed));
    }

    #[test]
    fn writes_one_record_and_no_byte_more() {
        let mut dest = [7; RECORD_SIZE + 1];
        assert_eq!(shortest_uncommon_prefix(&[0x41], &mut dest), Ok(1));
        assert_eq!(dest[..3], [0, 1, 0x42]);
        assert!(dest[3..RECORD_SIZE].iter().all(|&b| b == 0));
        assert_eq!(dest[RECORD_SIZE], 7);
    }

    #[test]
    fn refuses_length_before_room() {
        let mut dest = [7; RECORD_SIZE - 1];
        let mut bound = |prefix| shortest_uncommon_prefix(prefix, &mut dest);
        assert_eq!(bound(&[1; MAX_LEN + 1]), Err(Refusal::Malformed));
        assert_eq!(bound(&[1; MAX_LEN]), Err(Refusal::NoRoom));
        assert_eq!(dest, [7; RECORD_SIZE - 1]);
    }
}
