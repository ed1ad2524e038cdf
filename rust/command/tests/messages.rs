//! What docs/COMMAND.md says that is said of a text or a record: each of its rows is said of one of
//! these.
mod support;

use joistdenim::{MAX_LEN, MAX_PIVOTS};
use std::fs;
use support::{ran, root, table, LIST_OF_T, SHORT_T};

/// T's list with another text in the place of one.
const SLIPS: [(&str, &str); 6] = [
    ("\t-", ""),
    ("1\t4135", "2\t4135"),
    ("4130", "max"),
    ("4135\t41", "4134\t41"),
    ("\t41\t43", "\t42\t43"),
    ("\t43", "\t41>43"),
];

/// Short forms, each with a fault of its own.
const SHORT: [&str; 12] = [
    "4g\n",
    "413\n",
    "4130 41>\n42\n",
    "4130 41>-\n42\n",
    "4130 41 > 43\n42\n",
    "4130 43 -\n42\n",
    "4130\n42\n",
    "4130 43\n42 -\n",
    "4130 43\n",
    "refused\t3\n",
    "4130 -\n4129 -\n42\n",
    "41 43\nmax\n",
];

/// T with other bytes from a place on.
const BYTES: [(usize, &[u8]); 4] = [
    (68, &[0, 65]),
    (199, &[1]),
    (266, &[0xFF; 2]),
    (2, &[0xFF, 0xFE]),
];

/// All that is said of them, line by line.
fn said() -> Vec<String> {
    let pivots: String = (0..MAX_PIVOTS).map(|i| format!("41{i:02x} -\n")).collect();
    let long = "41".repeat(MAX_LEN + 1);
    let mut texts = vec![format!("{pivots}42\n"), long, "4\x001\x00".into()];
    texts.extend(SLIPS.map(|(old, new)| LIST_OF_T.replacen(old, new, 1)));
    texts.extend(SHORT.map(String::from));
    let of_texts = texts.iter().map(|text| ran("table", text).errors);
    let of_bytes = BYTES.iter().map(|(place, bytes)| {
        let mut t = table(SHORT_T);
        t[*place..][..bytes.len()].copy_from_slice(bytes);
        ran("list -", t).errors
    });
    of_texts.chain(of_bytes).collect()
}

/// The first cells of the table below a header that begins so.
fn cells<'a>(document: &'a str, header: &str) -> Vec<&'a str> {
    let (_, rows) = document.split_once(header).expect(header);
    let rows = rows.lines().skip(2).take_while(|row| row.starts_with("| "));
    let cell = |row: &'a str| row[2..].split(" | ").next().expect("a cell");
    rows.map(cell).collect()
}

#[test]
fn every_message_of_the_document_is_said() {
    let document = fs::read_to_string(root().join("docs/COMMAND.md")).expect("the document");
    let said = said();
    for (header, rows) in [("\n| said | ", 21), ("\n| said of a record | ", 4)] {
        let cells = cells(&document, header);
        assert_eq!(cells.len(), rows, "{header}");
        for cell in cells {
            let number = cell.find(": ").filter(|_| cell.starts_with("refused "));
            let (head, rest) = match number {
                Some(end) => cell.split_at(end + 2),
                None => ("joistdenim: ", cell),
            };
            let is_said = |line: &String| line.starts_with(head) && line.contains(rest);
            assert!(said.iter().any(is_said), "{cell}");
        }
    }
}
