//! The README's example, each way to write bytes, and texts that are no vectors.
use crate::expression::Names;
use crate::line::read;
use crate::Outcome;

fn record(field: u16, bytes: &[u8]) -> Vec<u8> {
    let mut record = [&field.to_be_bytes()[..], bytes].concat();
    record.resize(66, 0);
    record
}

#[test]
fn the_example_of_the_readme() {
    let readme = include_str!("../../../vectors/README.md");
    let example = readme.split("```\n").nth(1).expect("an example");
    let cases = read(example).expect("it is read");
    let calls: Vec<&str> = cases.iter().map(|case| &case.call[..]).collect();
    let cuts = ["split_left"; 4];
    assert_eq!(calls, [&cuts[..], &["get_key", "wf_pivots"]].concat());
    let row = &cases[1];
    assert_eq!((row.line, &row.name[..]), (7, "row 14"));
    assert_eq!((row.number, &row.rooms[..]), (None, &[300, 200][..]));
    let t = [record(2, b"A0"), record(2, b"A5"), record(1, b"B")].concat();
    let edges = [record(1, b"C"), record(65_534, &[])].concat();
    assert_eq!(row.slices, [t, edges, b"A1".to_vec()]);
    let pivots = [record(2, b"A0"), record(2, b"A1")].concat();
    let written = vec![pivots, record(2, b"C0")];
    let answers = vec![2];
    assert_eq!(row.outcome, Outcome::Taken { answers, written });
    assert_eq!(cases[2].outcome, Outcome::Refused(5));
    assert_eq!(cases[4].number, Some(2));
}

#[test]
fn ways_to_write_bytes() {
    let mut names = Names::default();
    names.define("K.1", "4130").expect("a name");
    let pair = [
        &[1, 0, 1, 0, 2][..],
        &record(1, b"A")[2..],
        &record(2, b"CD")[2..],
    ];
    let cases = [
        ("-", vec![]),
        ("00ff", vec![0, 255]),
        ("K.1+07", vec![0x41, 0x30, 7]),
        ("\"a\\t-\\n\"", b"a\t-\n".to_vec()),
        ("rec(K.1)", record(2, b"A0")),
        ("rec(-,41)", [record(0, &[]), record(1, b"A")].concat()),
        ("max", record(65_535, &[])),
        ("none", record(65_534, &[])),
        ("field(65)", record(65, &[])),
        ("field(1,4142)", record(1, b"AB")),
        (
            "entry(41,00000007)",
            [record(1, b"A"), vec![0, 0, 0, 7]].concat(),
        ),
        ("pair(41,4344)", pair.concat()),
        ("41*3+42", b"AAAB".to_vec()),
        ("414243[1:2]+K.1[1:]+K.1[:1]", b"B0A".to_vec()),
        ("414243*2[2:]", b"CABC".to_vec()),
        ("each(254,257,2,41+#)", vec![0x41, 254, 0x41, 0]),
        ("each(255,257,1,##)", vec![0, 255, 1, 0]),
    ];
    for (text, bytes) in cases {
        assert_eq!(names.bytes(text), Ok(bytes), "{text}");
    }
}

#[test]
fn what_is_no_expression() {
    let names = Names::default();
    for text in [
        "",
        "4",
        "4G",
        "FF",
        "T",
        "41+",
        "rec(",
        "rec(41",
        "max()",
        "41[2:]",
        "41[1:0]",
        "41*",
        "rec(41*65)",
        "\"a",
        "each(0,1,41)",
        "41 42",
    ] {
        assert!(names.bytes(text).is_err(), "{text}");
    }
}

#[test]
fn several_calls_numbers_and_two_answers() {
    let text = "call a b\nname : 41 @1,3..4 answers -1\n  2\n";
    let cases = read(text).expect("it is read");
    let runs: Vec<_> = cases
        .iter()
        .map(|case| (&case.call[..], case.number))
        .collect();
    let of = |call| [1, 3, 4].map(|number| (call, Some(number)));
    assert_eq!(runs, [of("a"), of("b")].concat());
    let (answers, written) = (vec![-1, 2], vec![]);
    assert_eq!(cases[5].outcome, Outcome::Taken { answers, written });
}

#[test]
fn lines_at_fault() {
    for (text, line) in [
        ("\n# more\nname 41 taken\n", 3),
        ("let t = 41\n", 1),
        ("let T 41\n", 1),
        ("call a\n\nname : 41\n", 3),
        ("name : 41 [1 taken\n", 1),
        ("name : 41 @x taken\n", 1),
        ("name : 41 refused\n", 1),
        ("name : 41 refused 1 2\n", 1),
    ] {
        assert_eq!(read(text).map_err(|fault| fault.0), Err(line), "{text}");
    }
}
