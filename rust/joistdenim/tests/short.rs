//! The short form: read, with what an edge replaces and without; printed and read back; and each
//! fault with its line and column.
mod support;

use joistdenim::{Table, MAX_LEN};
use support::{all_are_t, faults_of_tables, t};

#[test]
fn it_is_read() {
    all_are_t(&[
        "4130 43\n4135 -\n42\n",
        "left edge\n4130 43\n4135 -\n42",
        "\n# T\nleft\tedge # names\n\n4130\t43#43\n  4135  -\n42 # the end\n\n",
        "4130 43\r\n4135 -\r\n42\r\n",
        "4130 41>43\n4135 -\n42\n",
        "LEFT EDGE\n4130\t41>43#>\n4135 -\n42\n",
    ]);
    let all: Table = "- -\nmax\n".parse().expect("all keys");
    assert!(all.contains_all_keys());
    assert_eq!("- -\nMAX\n".parse().as_ref(), Ok(&all));
    let capitals: Table = "4A 4A>4B\n4b\n".parse().expect("capitals");
    assert_eq!("4a 4b\n4b\n".parse().as_ref(), Ok(&capitals));
    let taken_off: Table = "4130 .\n4135 -\n42\n".parse().expect("an empty edge");
    assert_eq!("4130 41>.\n4135 -\n42\n".parse().as_ref(), Ok(&taken_off));
}

#[test]
fn it_is_printed_and_read_back() {
    let long = "62".repeat(MAX_LEN);
    let cases = [
        ("4130 43\n4135 -\n42\n", "4130\t41>43\n4135\t-\n42\n".into()),
        ("- -\nmax\n", "-\t-\nmax\n".into()),
        (
            "- -\nff -\nff0a .\nmax\n",
            "-\t-\nff\t-\nff0a\tff>.\nmax\n".into(),
        ),
        (&format!("61 {long}\n62\n"), format!("61\t61>{long}\n62\n")),
    ];
    for (text, printed) in cases {
        let table: Table = text.parse().expect(text);
        assert_eq!(table.short().to_string(), format!("left\tedge\n{printed}"));
        assert_eq!(table.short().to_string().parse(), Ok(table));
    }
}

/// T with a bound moved: 41 30 alone is left of the slot, and its keys share more.
#[test]
fn an_edge_says_what_it_replaces() {
    let said = "what the keys of this slot share is 4130; for 41 to become 43, the edge is 4330";
    let moved = t().short().to_string().replace("4135", "4131");
    faults_of_tables(&[(&moved, (2, 6, said, 0))]);
    let mended: Table = moved.replace("41>43", "4130>4330").parse().expect("it");
    let key = "413007".parse().expect("a key");
    assert_eq!(mended.translate_key(&key), t().translate_key(&key));
    let wider = "what the keys of this slot share is 41";
    let empty = "what the keys of this slot share is 4130; for 41 to become ., the edge is 30";
    let from_none = "what the keys of this slot share is 41; for - to become 43, the edge is 4341";
    faults_of_tables(&[
        ("4130 4130>4330\n4135\n", (1, 6, wider, 0)),
        ("4130  42>43\n4135\n", (1, 7, wider, 0)),
        ("4130 41>.\n4131\n", (1, 6, empty, 0)),
        ("4130 ->43\n4135\n", (1, 6, from_none, 0)),
        ("41 -\n4130 41>43\n4131 -\n42\n", (2, 6, said, 0)),
    ]);
}

#[test]
fn what_is_replaced_is_looked_at_last() {
    let unsorted = "4130 42>43\n4129 -\n42\n".parse::<Table>().unwrap_err();
    assert_eq!(unsorted.refusal().map(|refusal| refusal.number()), Some(3));
    let nothing_shared = "41 ->43\nmax\n".parse::<Table>().unwrap_err();
    let number = nothing_shared.refusal().map(|refusal| refusal.number());
    assert_eq!((nothing_shared.column(), number), (4, Some(4)));
}

#[test]
fn faults_of_what_is_replaced() {
    let side = "before > stands what is replaced, behind it the edge, which is . if it is empty";
    let none = "without an edge nothing is replaced: write - alone, or . for the empty edge";
    let parted = "no space stands beside >: write it as 41>43";
    let half = "a byte has two digits, and the last has one";
    faults_of_tables(&[
        ("4130 41>\n42\n", (1, 9, side, 0)),
        ("4130 >43\n42\n", (1, 6, side, 0)),
        ("4130 >\n42\n", (1, 6, side, 0)),
        ("4130 41>-\n42\n", (1, 9, none, 0)),
        ("4130 41 > 43\n42\n", (1, 9, parted, 0)),
        ("4130 41> 43\n42\n", (1, 10, parted, 0)),
        ("4130 41 >43\n42\n", (1, 9, parted, 0)),
        ("4130 4>43\n42\n", (1, 7, half, 0)),
        ("4130 41>4\n42\n", (1, 10, half, 0)),
        ("4130 é>43\n42\n", (1, 6, "'é' is no hexadecimal digit", 0)),
        ("4130 41>é\n42\n", (1, 9, "'é' is no hexadecimal digit", 0)),
        ("4130 .>43\n42\n", (1, 6, "'.' is no hexadecimal digit", 0)),
        (
            "4130 41>42>43\n42\n",
            (1, 11, "'>' is no hexadecimal digit", 0),
        ),
        ("41>42 43\n42\n", (1, 3, "'>' is no hexadecimal digit", 0)),
        (
            "4130 41>43\n41>42\n",
            (2, 3, "'>' is no hexadecimal digit", 0),
        ),
    ]);
}

#[test]
fn faults_of_its_lines() {
    let missing = "the last line is missing, with the end of the table: a key or max alone";
    let alone = "the last line is the end of the table: a key or max alone, without an edge";
    let after = "the line before has no edge and is the end, so no line follows";
    let third = "a line has a left bound and an edge, or the end alone";
    let max = "max can only be the end of the table";
    faults_of_tables(&[
        ("", (1, 1, missing, 0)),
        ("# nothing\n\n", (3, 1, missing, 0)),
        ("left edge\n", (2, 1, missing, 0)),
        ("4130 43\n", (2, 1, missing, 0)),
        ("4130 -\n4135 41>43", (3, 1, missing, 0)),
        ("4130 43\n4135 -\n42 -\n", (3, 4, alone, 0)),
        ("4130 43\n4135 -", (2, 6, alone, 0)),
        ("4130 43\nmax -\n", (2, 5, alone, 0)),
        ("4130 43\nMAX 43\n", (2, 5, alone, 0)),
        ("4130 43\nmax -\n42\n", (2, 1, max, 0)),
        ("4130\n4135 -\n42\n", (2, 1, after, 0)),
        ("4130 43 -\n42\n", (1, 9, third, 0)),
        ("4130 41>43 -\n42\n", (1, 12, third, 0)),
        ("4130 é -\n42\n", (1, 8, third, 0)),
        ("4130 é\n42\n", (1, 6, "'é' is no hexadecimal digit", 0)),
        ("é 43\n42\n", (1, 1, "'é' is no hexadecimal digit", 0)),
        ("4130\t\t4x\n42\n", (1, 8, "'x' is no hexadecimal digit", 0)),
    ]);
}
