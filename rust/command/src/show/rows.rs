//! Answers as rows, for programs.
use super::answer::Answer;
use crate::refused::digits;
use joistdenim::Key;

pub const HEADER: &str = "key\tslot\tleft\tright\tshared\tedge\trenamed\trefusal\n";

/// The row of a line that is no key.
pub const UNREAD: &str = "\t\t\t\t\t\t\t?\n";

/// The refusal is 0 where there is none; what isn't known is left empty.
pub fn row(answer: &Answer) -> String {
    let key = match &answer.asked[..] {
        [] => Key::EMPTY.to_string(),
        bytes => digits(bytes),
    };
    let slot = match &answer.slot {
        Some(slot) => format!(
            "{}\t{}\t{}\t{}\t{}",
            slot.number, slot.left, slot.right, slot.shared, slot.edge
        ),
        None => "\t\t\t\t".into(),
    };
    let renamed = match &answer.renamed {
        Ok((renamed, _)) => format!("{renamed}\t0"),
        Err(refused) => format!("\t{}", refused.refusal.number()),
    };
    format!("{key}\t{slot}\t{renamed}\n")
}
