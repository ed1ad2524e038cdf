//! Keys, elements, edges and buckets as values: what they are made of, and what they refuse.
mod support;

use joistdenim::{
    from_hex, Bucket, Edge, Element, Entry, Key, Number, Refusal, TextError, ENTRY_SIZE,
    MAX_ENTRIES, MAX_LEN, NUMBER_SIZE, RECORD_SIZE,
};
use std::collections::HashSet;
use support::key;

/// The record with another length field.
fn marked(field: u16) -> [u8; RECORD_SIZE] {
    let mut record = [0; RECORD_SIZE];
    record[..2].copy_from_slice(&field.to_be_bytes());
    record
}

#[test]
fn a_key_is_its_bytes() {
    let read = Key::try_from(&[0x41, 0x30]).unwrap();
    assert_eq!(read.as_bytes(), [0x41, 0x30]);
    assert_eq!((read.len(), read.is_empty()), (2, false));
    assert_eq!(read.record()[..5], [0, 2, 0x41, 0x30, 0]);
    assert_eq!(read.as_ref(), read.as_bytes());
    assert_eq!(format!("{read:?} {read:>6}"), "Key(4130)   4130");
    assert_eq!(Key::default(), Key::try_from(&[]).unwrap());
    assert!(Key::EMPTY.is_empty());
    assert_eq!(HashSet::from([read, key("4130"), key("41")]).len(), 2);
}

#[test]
fn a_key_has_at_most_64_bytes() {
    assert_eq!(
        Key::try_from(&[7; MAX_LEN]).unwrap().as_bytes(),
        [7; MAX_LEN]
    );
    assert_eq!(Key::try_from(&[7; MAX_LEN + 1]), Err(Refusal::Malformed));
    assert_eq!(Key::try_from(&vec![0; 70_000][..]), Err(Refusal::Malformed));
}

#[test]
fn keys_and_max_rise() {
    let keys = ["-", "00", "0000", "01", "41", "4130", "41ff", "42", "ff"];
    let mut elements: Vec<Element> = keys.map(|text| key(text).into()).to_vec();
    elements.push(Element::Max);
    for (i, a) in elements.iter().enumerate() {
        for (j, b) in elements.iter().enumerate() {
            assert_eq!(a.cmp(b), i.cmp(&j), "{a} and {b}");
            assert_eq!(a == b, i == j);
            let keys = a.key().zip(b.key());
            assert!(keys.is_none_or(|(a, b)| a.cmp(b) == i.cmp(&j)));
        }
    }
}

#[test]
fn a_prefix_is_changed() {
    let (old, new) = (key("41"), key("43ff"));
    assert_eq!(key("4130").change_prefix(&old, &new), Ok(key("43ff30")));
    assert_eq!(
        key("4030").change_prefix(&old, &new),
        Err(Refusal::NotPrefix)
    );
    let long = Key::try_from(&[0x41; MAX_LEN]).unwrap();
    assert_eq!(long.change_prefix(&old, &new), Err(Refusal::TooLong));
}

#[test]
fn keys_elements_and_edges_have_texts() {
    assert_eq!(key("4aFf"), Key::try_from(&[0x4A, 0xFF]).unwrap());
    assert_eq!(key(""), Key::EMPTY);
    for text in ["-", "00", "4aff"] {
        assert_eq!(key(text).to_string(), text);
    }
    for text in ["-", "00", "max"] {
        assert_eq!(text.parse::<Element>().unwrap().to_string(), text);
    }
    for text in ["-", ".", "00"] {
        assert_eq!(text.parse::<Edge>().unwrap().to_string(), text);
    }
    let edges = ["-", ".", ""].map(|text| text.parse::<Edge>().unwrap());
    let empty = Edge::Prefix(Key::EMPTY);
    assert_eq!(edges, [Edge::Absent, empty, empty]);
}

#[test]
fn a_text_that_is_no_key_is_told_with_its_place() {
    for (text, place) in [("4g", 1), ("é0", 0), ("41 ", 2), ("max", 0), (".", 0)] {
        let found = text.chars().nth(place).unwrap();
        let error = TextError::NoDigit { place, found };
        assert_eq!(text.parse::<Key>(), Err(error), "{text}");
        assert_eq!((error.place(), error.refusal()), (place, None));
    }
    let half = TextError::HalfByte { place: 3 };
    assert_eq!("413".parse::<Key>(), Err(half));
    assert_eq!("413".parse::<Element>(), Err(half));
    assert_eq!("413".parse::<Edge>(), Err(half));
    let long = "41".repeat(MAX_LEN + 1);
    let error = long.parse::<Key>().unwrap_err();
    assert_eq!(error.refusal(), Some(Refusal::Malformed));
    let said = "a key has at most 64 bytes, and this one has 65";
    assert_eq!(error.to_string(), said);
    assert_eq!(from_hex(&long), Ok(vec![0x41; MAX_LEN + 1]));
    assert_eq!(from_hex("413"), Err(half));
}

#[test]
fn elements_and_edges_are_read_from_records() {
    let prefix = key("4130");
    let (max, absent) = (marked(65_535), marked(65_534));
    assert_eq!(Element::try_from(&max[..]), Ok(Element::Max));
    assert_eq!(Edge::try_from(&absent[..]), Ok(Edge::Absent));
    assert_eq!(
        Element::try_from(&prefix.record()[..]),
        Ok(Element::Key(prefix))
    );
    assert_eq!(
        Edge::try_from(&prefix.record()[..]),
        Ok(Edge::Prefix(prefix))
    );
    assert_eq!(
        [Element::Max.record(), Edge::Absent.record()],
        [&max, &absent]
    );
    assert_eq!(Element::try_from(&absent[..]), Err(Refusal::Malformed));
    assert_eq!(Edge::try_from(&max[..]), Err(Refusal::Malformed));
    for record in [marked(MAX_LEN as u16 + 1), marked(0x4100)] {
        assert_eq!(Element::try_from(&record[..]), Err(Refusal::Malformed));
        assert_eq!(Edge::try_from(&record[..]), Err(Refusal::Malformed));
    }
    for length in [0, RECORD_SIZE - 1, RECORD_SIZE + 1, 2 * RECORD_SIZE] {
        assert_eq!(Element::try_from(&vec![0; length][..]), Err(Refusal::Shape));
        assert_eq!(Edge::try_from(&vec![0; length][..]), Err(Refusal::Shape));
    }
}

#[test]
fn a_bucket_is_its_entries() {
    let entries = [("4130", 7), ("-", Number::MAX), ("4130", 0)];
    let entries = entries.map(|(text, number)| Entry {
        key: key(text),
        number,
    });
    let bucket = Bucket::new(&entries).unwrap();
    assert_eq!(bucket.entries().collect::<Vec<_>>(), entries);
    let (first, others) = bucket.as_bytes().split_at(ENTRY_SIZE);
    assert_eq!(first[RECORD_SIZE..], Number::to_be_bytes(7));
    assert_eq!(others[RECORD_SIZE..ENTRY_SIZE], [0xFF; NUMBER_SIZE]);
    let text = format!("4130\t7\n-\t{}\n4130\t0\n", Number::MAX);
    assert_eq!(bucket.to_string(), text);
    assert_eq!(bucket.to_string().parse().as_ref(), Ok(&bucket));
    assert_eq!(Bucket::try_from(bucket.as_bytes()).as_ref(), Ok(&bucket));
    let kept = bucket.translate(&key("41"), &Key::EMPTY).unwrap();
    assert_eq!(kept.to_string(), "30\t7\n30\t0\n");
    let long = Key::try_from(&[0x43; MAX_LEN]).unwrap();
    assert_eq!(bucket.translate(&key("41"), &long), Err(Refusal::TooLong));
    assert_eq!(Bucket::default().to_string(), "");
}

#[test]
fn what_is_no_bucket_is_refused() {
    let entry = Entry {
        key: Key::EMPTY,
        number: 0,
    };
    assert!(Bucket::new(&[entry; MAX_ENTRIES]).is_ok());
    assert_eq!(Bucket::new(&[entry; MAX_ENTRIES + 1]), Err(Refusal::Shape));
    assert_eq!(
        Bucket::try_from(&[0; ENTRY_SIZE - 1][..]),
        Err(Refusal::Shape)
    );
    assert_eq!(
        Bucket::try_from(&[1; ENTRY_SIZE][..]),
        Err(Refusal::Malformed)
    );
}
