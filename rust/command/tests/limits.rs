//! What is told, or kept, by the last of a row: the shortest text that is told as text, and every
//! bit of a file's mode.
mod support;

use std::fs;
use std::os::unix::fs::PermissionsExt;
use support::{folder, quiet, ran, shell};

/// Two letters may be the count that a table begins with; a third is no byte of a record.
#[test]
fn three_letters_are_a_text_and_two_are_a_count() {
    let text = "refused 1: standard input is text; 'joistdenim table' makes a table of a list";
    ran("list -", "abc").failed(1, text);
    let two = ran("list -", "ab");
    assert_eq!((two.status, two.errors.contains("is text")), (1, false));
}

#[test]
fn a_file_that_is_replaced_keeps_every_bit_of_its_mode() {
    let folder = folder();
    for mode in [0o751, 0o624, 0o700] {
        let path = folder.at("t.table");
        fs::set_permissions(&path, fs::Permissions::from_mode(mode)).expect("mode");
        quiet(&shell(
            "joistdenim list large.table -o t.table",
            folder.path(),
        ));
        let kept = fs::metadata(&path).expect("it is there").permissions();
        assert_eq!(kept.mode() & 0o7777, mode);
    }
}
