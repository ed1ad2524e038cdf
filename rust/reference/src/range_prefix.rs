//! The prefix of a range: PivotLcp.
use crate::record::Element;

fn run_of_ff(bytes: &[u8]) -> usize {
    bytes.iter().take_while(|&&b| b == 0xFF).count()
}

/// "Right is max: the left key's leading run of FF. Otherwise take the common run. If left goes
/// on and right has exactly one byte more, and it is left's next byte plus 1, add left's byte
/// and the run of FF that follows it."
pub fn range_prefix<'a>(left: &'a [u8], right: Element) -> &'a [u8] {
    let Element::Key(right) = right else {
        return &left[..run_of_ff(left)];
    };
    let common = left.iter().zip(right).take_while(|(a, b)| a == b).count();
    match (&left[common..], &right[common..]) {
        ([next, rest @ ..], [last]) if next.checked_add(1) == Some(*last) => {
            &left[..common + 1 + run_of_ff(rest)]
        }
        _ => &left[..common],
    }
}

#[cfg(test)]
mod tests {
    use super::*;

    #[test]
    fn rows_1_to_7() {
        let key = |left: &'static [u8], right: &[u8]| range_prefix(left, Element::Key(right));
        assert_eq!(key(&[0x41, 0x30], &[0x41, 0x35]), [0x41]);
        assert_eq!(key(&[0x41, 0x35], &[0x42]), [0x41]);
        assert_eq!(key(&[0x41, 0xFF, 0xFF, 7], &[0x42]), [0x41, 0xFF, 0xFF]);
        assert_eq!(key(&[0x41, 0xFF], &[0x42, 0]), []);
        assert_eq!(
            range_prefix(&[0xFF, 0xFF, 0x10], Element::Max),
            [0xFF, 0xFF]
        );
        assert_eq!(range_prefix(&[], Element::Max), []);
        assert_eq!(key(&[0x41], &[0x41, 5]), [0x41]);
    }

    #[test]
    fn ff_has_no_next_byte() {
        assert_eq!(range_prefix(&[0xFF, 0xFF], Element::Key(&[0])), []);
    }
}
