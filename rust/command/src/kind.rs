//! What bytes look like that aren't what was wanted, so that a message leads to the right command.

/// So many bytes are looked at for UTF-16.
const HEAD: usize = 16;

/// Whether they begin with a line of printable characters, as no table and no bucket does.
pub fn is_text(bytes: &[u8]) -> bool {
    let line = bytes
        .split(|byte| *byte == b'\n')
        .next()
        .unwrap_or_default();
    let printable = |byte: &u8| (b' '..=b'~').contains(byte) || *byte == b'\t';
    bytes.len() > 2 && line.iter().all(printable)
}

/// Whether they are text in UTF-16: by a byte order mark, or by a zero beside each of the first
/// characters, of which there are two at least. A record with the mark "no edge" begins as such a
/// text may, and goes on with zeros.
pub fn is_utf16(bytes: &[u8]) -> bool {
    let head = &bytes[..bytes.len().min(HEAD)];
    let pairs = || head.chunks_exact(2);
    match head {
        [0xFF, 0xFE, ..] | [0xFE, 0xFF, ..] => pairs().all(|pair| pair != [0, 0]),
        [_, _, _, _, ..] => {
            pairs().all(|pair| pair[0] == 0 && is_character(pair[1]))
                || pairs().all(|pair| pair[1] == 0 && is_character(pair[0]))
        }
        _ => false,
    }
}

/// Whether the character of this number is one of a text.
fn is_character(byte: u8) -> bool {
    byte.is_ascii_whitespace() || !char::from(byte).is_control()
}
