//! Tables as values: what they are made of, what they refuse, and that their methods hand on what
//! the calls answer.
mod support;

use joistdenim::{wf_edges, Edge, Element, Key, RecordPlace, Refusal, Table};
use joistdenim::{MAX_LEN, MAX_PIVOTS, RECORD_SIZE};
use support::{key, pivots, t, table, T_SIZE};

#[test]
fn a_table_is_the_same_by_parts_by_bytes_and_by_text() {
    let pivots = ["4130", "4135", "42"].map(|text| Element::Key(key(text)));
    let edges = [Edge::Prefix(key("43")), Edge::Absent];
    let t = t();
    assert_eq!(Table::new(&pivots, &edges).as_ref(), Ok(&t));
    assert_eq!(t.pivots().collect::<Vec<_>>(), pivots);
    assert_eq!(t.edges().collect::<Vec<_>>(), edges);
    let bytes = t.to_bytes();
    assert_eq!(
        (bytes.len(), &bytes[..6]),
        (T_SIZE, &[0, 3, 0, 2, 0x41, 0x30][..])
    );
    assert_eq!(Table::try_from(&bytes[..]).as_ref(), Ok(&t));
    let (pivots, edges) = t.records();
    assert_eq!((pivots, edges), bytes[2..].split_at(3 * RECORD_SIZE));
    assert_eq!(wf_edges(pivots, edges), Ok(()));
    assert_eq!(Table::from_records(pivots, edges).as_ref(), Ok(&t));
    assert_eq!(Table::split_input(&bytes), Some((pivots, edges)));
}

#[test]
fn what_is_no_table_is_refused() {
    let [a, b, max] = [key("41").into(), key("42").into(), Element::Max];
    let (absent, edge) = (Edge::Absent, Edge::Prefix(key("43")));
    let cases: [(&[Element], &[Edge], Refusal); 8] = [
        (&[], &[], Refusal::Shape),
        (&[a], &[], Refusal::Shape),
        (&[a, b], &[absent, absent], Refusal::Shape),
        (&[max, a], &[absent], Refusal::Malformed),
        (&[a, max, b], &[absent, absent], Refusal::Malformed),
        (&[b, a], &[absent], Refusal::Unsorted),
        (&[a, a], &[edge], Refusal::Unsorted),
        (&[a, max], &[edge], Refusal::EmptyPrefix),
    ];
    for (pivots, edges, refusal) in cases {
        assert_eq!(Table::new(pivots, edges), Err(refusal));
    }
    let bytes = t().to_bytes();
    for length in [0, 1, 2, 331] {
        assert_eq!(Table::try_from(&bytes[..length]), Err(Refusal::Shape));
    }
    let longer = [&bytes[..], &[0]].concat();
    assert_eq!(Table::try_from(&longer[..]), Err(Refusal::Shape));
    assert_eq!(Table::split_input(&bytes[..1]), None);
}

#[test]
fn a_table_is_asked() {
    let t = t();
    let slots: Vec<_> = t.slots().collect();
    assert_eq!((slots.len(), slots[0].number, slots[1].number), (2, 0, 1));
    assert_eq!(
        (slots[0].left, slots[0].right),
        (key("4130"), key("4135").into())
    );
    assert_eq!((slots[1].shared, slots[1].edge), (key("41"), Edge::Absent));
    assert_eq!(t.route(&key("4134")).as_ref(), Ok(&slots[0]));
    assert_eq!(t.route(&key("4135")).as_ref(), Ok(&slots[1]));
    for outside in ["412f", "42", "-"].map(key) {
        assert_eq!(t.route(&outside), Err(Refusal::OutOfRange));
        assert_eq!(t.translate_key(&outside), Err(Refusal::OutOfRange));
        assert_eq!(t.translate(&outside), Err(Refusal::OutOfRange));
        assert!(!t.bounded_key(&outside));
    }
    assert_eq!(t.translate_key(&key("413107")), Ok(key("433107")));
    assert_eq!(t.translate_key(&key("4135")), Ok(key("4135")));
    let pair = t.translate(&key("413107")).unwrap();
    assert_eq!(pair.prefixes(), Some((&[0x41][..], &[0x43][..])));
    assert_eq!(t.translate(&key("4135")).unwrap().prefixes(), None);
    assert!(t.bounded_key(&key("4130")) && !t.contains_all_keys());
    let first = Table::first();
    assert!(first.contains_all_keys() && first.bounded_key(&Key::EMPTY));
    assert_eq!(first, table("- -\nmax\n"));
}

#[test]
fn a_produced_key_of_64_bytes_is_taken() {
    let edge = "43".repeat(MAX_LEN - 1);
    let long = table(&format!("4130 {edge}\n4135\n"));
    assert_eq!(long.translate_key(&key("4130")).unwrap().len(), MAX_LEN);
    assert_eq!(long.translate_key(&key("413000")), Err(Refusal::TooLong));
    assert_eq!(long.split_right(&key("4134ff05")), Err(Refusal::TooLong));
}

#[test]
fn a_table_is_divided_and_put_together() {
    let t = t();
    let at = key("4131");
    let (left, right) = (t.split_left(&at).unwrap(), t.split_right(&at).unwrap());
    assert_eq!(left, table("4130 4330\n4131\n"));
    assert_eq!(right, table("4131 43\n4135 -\n42\n"));
    let whole = t.insert_pivot(&at).unwrap();
    assert_eq!(left.join(&right).as_ref(), Ok(&whole));
    assert_eq!(whole, table("4130 4330\n4131 43\n4135 -\n42\n"));
    assert_eq!(t.split_left(&key("42")).as_ref(), Ok(&t));
    assert_eq!(t.split_right(&key("4130")).as_ref(), Ok(&t));
    assert_eq!(t.split_left(&key("4130")), Err(Refusal::OutOfRange));
    assert_eq!(t.split_right(&key("42")), Err(Refusal::OutOfRange));
    assert_eq!(t.insert_pivot(&key("43")), Err(Refusal::OutOfRange));
    assert_eq!(t.insert_pivot(&key("4135")), Err(Refusal::AlreadyPivot));
    assert_eq!(t.join(&t), Err(Refusal::NotMeeting));
}

#[test]
fn a_table_has_at_most_64_pivots() {
    let lines: String = (0..MAX_PIVOTS - 1)
        .map(|i| format!("41{:02x} -\n", 2 * i))
        .collect();
    let full = table(&format!("{lines}42\n"));
    assert_eq!(full.pivots().len(), MAX_PIVOTS);
    assert_eq!(full.insert_pivot(&key("4101")), Err(Refusal::TooManyPivots));
    let more = table("42 -\n43\n");
    assert_eq!(full.join(&more), Err(Refusal::TooManyPivots));
}

#[test]
fn the_record_that_is_at_fault_is_found() {
    let absent = Edge::Absent.record().repeat(2);
    let edge = [*Edge::Absent.record(), *key("43").record()].concat();
    let wrong = [*Edge::Absent.record(), *Element::Max.record()].concat();
    let cases = [
        ("41 42 43", &absent, None),
        ("41 42 42", &absent, Some(RecordPlace::Pivot(2))),
        ("42 41 40", &absent, Some(RecordPlace::Pivot(1))),
        ("41 max 42", &absent, Some(RecordPlace::Pivot(1))),
        ("41 max max", &wrong, Some(RecordPlace::Pivot(1))),
        ("41 42 max", &wrong, Some(RecordPlace::Edge(1))),
        ("43 42 41", &wrong, Some(RecordPlace::Edge(1))),
        ("41 42 4300", &edge, Some(RecordPlace::Edge(1))),
        ("41 42", &absent, None),
        ("42 41", &wrong, None),
    ];
    for (text, edges, place) in cases {
        let found = Table::refused_record(&pivots(text), edges);
        assert_eq!(found, place, "{text}");
    }
    let last = [&pivots("41 42")[..], &[1; RECORD_SIZE]].concat();
    let found = Table::refused_record(&last, &absent);
    assert_eq!(found, Some(RecordPlace::Pivot(2)));
}
