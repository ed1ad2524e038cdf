//! Words of the program as bytes that a call is lent, and bytes that it wrote as words: a key is its
//! digits, or "." where it is empty; "max" is max and "-" no edge, or an absent pair.
use joistdenim::{from_hex, Number, ENTRY_SIZE, MAX_LEN, NUMBER_SIZE, PAIR_SIZE, RECORD_SIZE};

const EMPTY: &str = ".";
const MAX: &str = "max";
const NONE: &str = "-";

const MAX_MARK: u16 = 0xFFFF;
const NO_EDGE_MARK: u16 = 0xFFFE;

pub fn key(word: &str) -> Vec<u8> {
    match word {
        EMPTY => vec![],
        digits => from_hex(digits).unwrap_or_else(|e| panic!("{digits}: {e}")),
    }
}

/// A key that is too long has its length in the field, and its first bytes behind it.
pub fn record(word: &str) -> Vec<u8> {
    let key = match word {
        MAX | NONE => vec![],
        word => key(word),
    };
    let field = match word {
        MAX => MAX_MARK,
        NONE => NO_EDGE_MARK,
        _ => key.len() as u16,
    };
    let mut record = field.to_be_bytes().to_vec();
    record.extend(&key);
    record.resize(RECORD_SIZE, 0);
    record
}

pub fn records(words: &[&str]) -> Vec<u8> {
    words.iter().flat_map(|word| record(word)).collect()
}

/// Key and number in turn.
pub fn entries(words: &[&str]) -> Vec<u8> {
    let mut bytes = vec![];
    for entry in words.chunks(2) {
        let number: Number = entry[1].parse().expect("a number behind a key");
        bytes.extend(record(entry[0]));
        bytes.extend(number.to_be_bytes());
    }
    bytes
}

/// Old and new prefix, or an absent pair.
pub fn pair(words: &[&str]) -> Vec<u8> {
    match words {
        [old, new] => there(&[key(old), key(new)]),
        [NONE] => vec![0; PAIR_SIZE],
        words => panic!("no pair: {words:?}"),
    }
}

/// Of a prefix that is too long the first bytes.
fn there(prefixes: &[Vec<u8>; 2]) -> Vec<u8> {
    let mut bytes = vec![0; PAIR_SIZE];
    bytes[0] = 1;
    for (i, prefix) in prefixes.iter().enumerate() {
        let kept = prefix.len().min(MAX_LEN);
        bytes[1 + 2 * i..][..2].copy_from_slice(&(prefix.len() as u16).to_be_bytes());
        bytes[5 + MAX_LEN * i..][..kept].copy_from_slice(&prefix[..kept]);
    }
    bytes
}

pub fn of_key(key: &[u8]) -> String {
    if key.is_empty() {
        return EMPTY.to_string();
    }
    key.iter().map(|byte| format!("{byte:02x}")).collect()
}

/// Of a record that isn't as document 01 has it, a word that is none of the program's.
fn of_record(bytes: &[u8]) -> String {
    let field = u16::from_be_bytes([bytes[0], bytes[1]]);
    let word = match field {
        MAX_MARK => MAX.to_string(),
        NO_EDGE_MARK => NONE.to_string(),
        length if usize::from(length) <= MAX_LEN => of_key(&bytes[2..][..length.into()]),
        length => format!("length-{length}"),
    };
    if word.starts_with("length") || record(&word) == bytes {
        word
    } else {
        format!("padded-{word}")
    }
}

pub fn of_records(bytes: &[u8]) -> String {
    let words: Vec<String> = bytes.chunks(RECORD_SIZE).map(of_record).collect();
    words.join(" ")
}

pub fn of_entries(bytes: &[u8]) -> String {
    let entry = |entry: &[u8]| {
        let number: [u8; NUMBER_SIZE] = entry[RECORD_SIZE..].try_into().expect("a number");
        let number = Number::from_be_bytes(number);
        format!("{} {number}", of_record(&entry[..RECORD_SIZE]))
    };
    let words: Vec<String> = bytes.chunks(ENTRY_SIZE).map(entry).collect();
    words.join(" ")
}

/// Of a pair that isn't as the format has it, or whether it is there isn't as was answered, a word
/// that is none of the program's.
pub fn of_pair(is_there: bool, bytes: &[u8]) -> String {
    let prefix = |i: usize| {
        let length = u16::from_be_bytes([bytes[1 + 2 * i], bytes[2 + 2 * i]]);
        bytes[5 + MAX_LEN * i..][..usize::from(length).min(MAX_LEN)].to_vec()
    };
    let prefixes = [prefix(0), prefix(1)];
    if is_there && bytes == there(&prefixes) {
        prefixes.map(|prefix| of_key(&prefix)).join(" ")
    } else if !is_there && bytes == pair(&[NONE]) {
        NONE.to_string()
    } else {
        "wrong-pair".to_string()
    }
}

pub fn of_bool(yes: bool) -> String {
    if yes { "yes" } else { "no" }.to_string()
}

#[cfg(test)]
mod tests {
    use super::*;

    #[test]
    fn records_are_read_back() {
        let long = "41".repeat(MAX_LEN + 1);
        let words = [".", "41", "max", "-", &"ff".repeat(MAX_LEN)];
        let bytes = records(&words);
        assert_eq!(bytes.len(), 5 * RECORD_SIZE);
        assert_eq!(of_records(&bytes), words.join(" "));
        assert_eq!(record("41")[..4], [0, 1, 0x41, 0]);
        assert_eq!(record(&long)[..3], [0, 65, 0x41]);
        assert_eq!(of_records(&record(&long)), "length-65");
    }

    #[test]
    fn a_byte_behind_a_key_or_a_mark_is_seen() {
        for word in [".", "41", "max", "-"] {
            let mut bytes = record(word);
            bytes[RECORD_SIZE - 1] = 1;
            assert_eq!(of_records(&bytes), format!("padded-{word}"));
        }
    }

    #[test]
    fn entries_are_read_back() {
        let words = [".", "7", "4142", "4294967295"];
        let bytes = entries(&words);
        assert_eq!(bytes.len(), 2 * ENTRY_SIZE);
        assert_eq!(bytes[RECORD_SIZE..ENTRY_SIZE], Number::to_be_bytes(7));
        assert_eq!(of_entries(&bytes), words.join(" "));
    }

    #[test]
    fn pairs_are_read_back() {
        for words in [vec!["-"], vec![".", "."], vec!["41", "4230"]] {
            let (there, mut bytes) = (words.len() == 2, pair(&words));
            assert_eq!(of_pair(there, &bytes), words.join(" "));
            assert_eq!(of_pair(!there, &bytes), "wrong-pair");
            bytes[PAIR_SIZE - 1] = 1;
            assert_eq!(of_pair(there, &bytes), "wrong-pair");
        }
        assert_eq!(pair(&["41", "4230"])[..6], [1, 0, 1, 0, 2, 0x41]);
    }
}
