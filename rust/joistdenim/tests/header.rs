//! include/joistdenim.h and this crate say the same: what refusals mean, and sizes.
use joistdenim::{
    Refusal, ENTRY_SIZE, MAX_ENTRIES, MAX_LEN, MAX_LIST, MAX_PIVOTS, MIN_PIVOTS, PAIR_SIZE,
    PLACE_SIZE, RECORD_SIZE,
};
use std::fs;

const REFUSALS: [(&str, Refusal); 15] = [
    ("JD_SHAPE", Refusal::Shape),
    ("JD_MALFORMED", Refusal::Malformed),
    ("JD_UNSORTED", Refusal::Unsorted),
    ("JD_EMPTY_PREFIX", Refusal::EmptyPrefix),
    ("JD_OUT_OF_RANGE", Refusal::OutOfRange),
    ("JD_NO_SUCH_SLOT", Refusal::NoSuchSlot),
    ("JD_NOT_PREFIX", Refusal::NotPrefix),
    ("JD_TOO_LONG", Refusal::TooLong),
    ("JD_NOT_BELOW", Refusal::NotBelow),
    ("JD_NO_ROOM", Refusal::NoRoom),
    ("JD_ALREADY_PIVOT", Refusal::AlreadyPivot),
    ("JD_TOO_MANY_PIVOTS", Refusal::TooManyPivots),
    ("JD_NOT_MEETING", Refusal::NotMeeting),
    ("JD_ENTRIES_UNSORTED", Refusal::EntriesUnsorted),
    ("JD_WRONG_INDEX", Refusal::WrongIndex),
];

const SIZES: [(&str, usize); 9] = [
    ("JD_MAX_LEN", MAX_LEN),
    ("JD_RECORD_SIZE", RECORD_SIZE),
    ("JD_ENTRY_SIZE", ENTRY_SIZE),
    ("JD_PAIR_SIZE", PAIR_SIZE),
    ("JD_PLACE_SIZE", PLACE_SIZE),
    ("JD_MIN_PIVOTS", MIN_PIVOTS),
    ("JD_MAX_PIVOTS", MAX_PIVOTS),
    ("JD_MAX_ENTRIES", MAX_ENTRIES),
    ("JD_MAX_LIST", MAX_LIST),
];

/// The lines of the header that begin so, after their indentation; what follows the beginning.
fn after(beginning: &str) -> Vec<String> {
    let path = concat!(env!("CARGO_MANIFEST_DIR"), "/../../include/joistdenim.h");
    let header = fs::read_to_string(path).expect(path);
    let rests = header
        .lines()
        .filter_map(|line| line.trim().strip_prefix(beginning));
    rests.map(str::to_string).collect()
}

#[test]
fn a_refusal_has_its_number_and_its_meaning_in_the_comment() {
    for (name, refusal) in REFUSALS {
        let lines = after(&format!("{name} = "));
        let [line] = &lines[..] else {
            panic!("{name}: {lines:?}")
        };
        let (number, comment) = line.split_once("/*").expect("a comment");
        let number = number.trim().trim_end_matches(',').parse();
        assert_eq!(number, Ok(refusal.number()), "{name}");
        assert_eq!(comment, format!(" {} */", refusal.meaning()), "{name}");
    }
}

#[test]
fn jd_refusal_text_tells_the_meaning() {
    for (name, refusal) in REFUSALS {
        let told = format!("return \"{}\";", refusal.meaning());
        assert_eq!(after(&format!("case {name}: ")), [told], "{name}");
    }
    assert_eq!(after("case JD_").len(), REFUSALS.len());
}

#[test]
fn sizes_agree() {
    for (name, size) in SIZES {
        let lines = after(&format!("#define {name} "));
        let numbers = lines.iter().map(|line| line.split(' ').next());
        assert_eq!(
            numbers.collect::<Vec<_>>(),
            [Some(&size.to_string()[..])],
            "{name}"
        );
    }
}
