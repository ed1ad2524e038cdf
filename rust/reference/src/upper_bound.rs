//! The upper bound of a prefix: ShortestUncommonPrefix.

/// "The last byte that isn't FF is raised by 1 and the rest dropped; ε and an all-FF prefix
/// give max", here `None`.
pub fn upper_bound(prefix: &[u8]) -> Option<Vec<u8>> {
    let last = prefix.iter().rposition(|&b| b != 0xFF)?;
    let mut bound = prefix[..=last].to_vec();
    bound[last] += 1;
    Some(bound)
}

#[cfg(test)]
mod tests {
    use super::*;

    #[test]
    fn rows_8_to_10() {
        assert_eq!(upper_bound(&[0x41, 0xFF, 0xFF]), Some(vec![0x42]));
        assert_eq!(upper_bound(&[0xFF, 0xFF]), None);
        assert_eq!(upper_bound(&[0x41, 0x30]), Some(vec![0x41, 0x31]));
        assert_eq!(upper_bound(&[]), None);
    }
}
