//! Values made of slices, vectors and arrays alike, and what is printed where `main` answers an
//! error.
mod support;

use joistdenim::{list_table, Bucket, Edge, Element, Entry, Key, Pair, Refusal, Table};
use joistdenim::{ENTRY_SIZE, MAX_LEN, PAIR_SIZE, RECORD_SIZE};
use std::fmt::Debug;
use support::{key, record_at, t, T_SIZE};

/// More bytes than a key has.
const LONG: usize = MAX_LEN + 1;

/// What is made of the bytes, lent or given in each way.
fn made<T, const N: usize>(bytes: [u8; N]) -> Result<T, Refusal>
where
    T: Debug + PartialEq + TryFrom<Vec<u8>, Error = Refusal> + TryFrom<[u8; N], Error = Refusal>,
    T: for<'a> TryFrom<&'a [u8], Error = Refusal> + for<'a> TryFrom<&'a Vec<u8>, Error = Refusal>,
    T: for<'a> TryFrom<&'a [u8; N], Error = Refusal>,
{
    let vector = bytes.to_vec();
    let wanted = T::try_from(&bytes[..]);
    assert_eq!(T::try_from(&vector), wanted);
    assert_eq!(T::try_from(vector), wanted);
    assert_eq!(T::try_from(&bytes), wanted);
    assert_eq!(T::try_from(bytes), wanted);
    wanted
}

#[test]
fn vectors_and_arrays_are_taken_as_slices_are() {
    let key = key("4130");
    assert_eq!(made([0x41, 0x30]), Ok(key));
    assert_eq!(made(*key.record()), Ok(Element::Key(key)));
    assert_eq!(made(*Element::Max.record()), Ok(Element::Max));
    assert_eq!(made(*key.record()), Ok(Edge::Prefix(key)));
    assert_eq!(made(*Edge::Absent.record()), Ok(Edge::Absent));
    let entry = Entry { key, number: 7 };
    assert_eq!(made(entry.to_bytes()), Bucket::new(&[entry]));
    let pair = Pair::new(&[0x41], &[0x43]).unwrap();
    assert_eq!(made(*pair.as_bytes()), Ok(pair));
    let bytes: [u8; T_SIZE] = t().to_bytes().try_into().unwrap();
    assert_eq!(made(bytes), Ok(t()));
}

#[test]
fn vectors_and_arrays_are_refused_as_slices_are() {
    assert_eq!(made::<Key, LONG>([0; LONG]), Err(Refusal::Malformed));
    assert_eq!(made::<Element, LONG>([0; LONG]), Err(Refusal::Shape));
    let ones = [1; RECORD_SIZE];
    assert_eq!(made::<Edge, RECORD_SIZE>(ones), Err(Refusal::Malformed));
    let ones = [1; ENTRY_SIZE];
    assert_eq!(made::<Bucket, ENTRY_SIZE>(ones), Err(Refusal::Malformed));
    let twos = [2; PAIR_SIZE];
    assert_eq!(made::<Pair, PAIR_SIZE>(twos), Err(Refusal::Malformed));
    assert_eq!(made::<Table, 1>([0]), Err(Refusal::Shape));
}

#[test]
fn values_give_back_what_they_are_made_of() {
    let (prefix, empty) = (key("43"), Key::EMPTY);
    assert_eq!(Edge::from(prefix).prefix(), Some(&prefix));
    assert_eq!(Edge::from(empty).prefix(), Some(&empty));
    assert_eq!(
        (Edge::Absent.prefix(), Edge::default()),
        (None, Edge::Absent)
    );
    assert_eq!(Element::from(prefix).key(), Some(&prefix));
    assert_eq!(Element::Max.key(), None);
    let pair = Pair::new(&[0x41], &[0x43]).unwrap();
    assert_eq!(<[u8; PAIR_SIZE]>::from(pair), *pair.as_bytes());
    let texts = [pair, Pair::default()].map(|pair| format!("{pair:?}"));
    assert_eq!(texts, ["Pair([41] to [43])", "Pair(absent)"]);
}

/// T with other bytes from a place on, refused with the number that its list has.
#[test]
fn a_table_of_bytes_is_refused_as_the_list_program_refuses_it() {
    let bytes = t().to_bytes();
    assert_eq!(Table::from_bytes(&bytes), Ok(t()));
    let cases: [(usize, &[u8], Refusal); 5] = [
        (0, &[0, 2], Refusal::Shape),
        (record_at(1), &[0, LONG as u8], Refusal::Malformed),
        (record_at(4), &[0xFF, 0xFF], Refusal::Malformed),
        (record_at(1) + 3, &[0x30], Refusal::Unsorted),
        (record_at(0) + 2, &[0x40], Refusal::EmptyPrefix),
    ];
    for (place, other, refusal) in cases {
        let mut bytes = bytes.clone();
        bytes[place..][..other.len()].copy_from_slice(other);
        assert_eq!(Table::from_bytes(&bytes), Err(refusal));
        let mut list = [0; 10];
        assert_eq!(list_table(&bytes, &mut list), Ok(10));
        assert_eq!(list, *format!("refused\t{}\n", refusal.number()).as_bytes());
    }
    assert_eq!(Table::from_bytes(&bytes[..T_SIZE - 1]), Err(Refusal::Shape));
    let longer = [&bytes[..], &[0]].concat();
    assert_eq!(Table::from_bytes(&longer), Err(Refusal::Shape));
}

/// `main` prints by `Debug` what it answers.
#[test]
fn an_error_from_main_says_what_it_means() {
    let refusal = Refusal::NotPrefix;
    let meaning = "refusal 7: an old prefix doesn't begin what it must";
    assert_eq!(format!("{refusal:?}"), meaning);
    let error = "4g".parse::<Key>().unwrap_err();
    assert_eq!(format!("{error:?}"), "'g' is no hexadecimal digit");
    let error = "4g -\nmax\n".parse::<Table>().unwrap_err();
    let place = "line 1, column 2: 'g' is no hexadecimal digit";
    assert_eq!(format!("{error:?}"), place);
}
