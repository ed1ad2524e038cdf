//! The numbers of refusals in the table of contracts: a row that has one cites a theorem that says so.
use crate::numbering::Numbering;

/// The first and the last number of a row's status.
pub type Numbers = (usize, usize);

/// `refusal N` or `refusal N-M`. Whether these numbers are given says `words_of`.
pub fn read(status: &str) -> Option<Numbers> {
    let numbers = status.strip_prefix("refusal ")?;
    match numbers.split_once('-') {
        None => numbers.parse().ok().map(|n| (n, n)),
        Some((first, last)) => {
            let range: Numbers = (first.parse().ok()?, last.parse().ok()?);
            (range.0 < range.1).then_some(range)
        }
    }
}

/// The words that the theorem's statement must have: a refusal at its place, or one up to a number. `None` where no
/// refusal has the first or the last number.
pub fn words_of((first, last): Numbers, numbering: &Numbering) -> Option<[String; 2]> {
    let name = numbering.name(first)?;
    numbering.name(last)?;
    match first < last {
        true => Some(["Refuses".to_string(), last.to_string()]),
        false => Some(["RefusesAt".to_string(), name.to_string()]),
    }
}

pub fn says(statement: &str, wanted: &[String]) -> bool {
    let apart = |c: char| c.is_whitespace() || c == '(' || c == ')';
    let has = |word: &String| statement.split(apart).any(|found| found == word);
    wanted.iter().all(has)
}

#[cfg(test)]
mod tests {
    use super::read;

    #[test]
    fn numbers_and_ranges_are_read() {
        assert_eq!(read("refusal 7"), Some((7, 7)));
        assert_eq!(read("refusal 12"), Some((12, 12)));
        assert_eq!(read("refusal 1-4"), Some((1, 4)));
        assert_eq!(read("refusal 9-10"), Some((9, 10)));
    }
}
