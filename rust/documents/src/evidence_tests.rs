use crate::evidence::{public, Public};

fn names(path: &str, text: &str) -> Vec<String> {
    let public = public(path, text).unwrap();
    public.into_iter().map(|Public { name, .. }| name).collect()
}

#[test]
fn public_in_proofs() {
    let text = "use lib.{length}
pub mod keys
pub use lib.{take}
pub plain : A
hidden : A
abbrev pub short {ℓ} : A
abbrev kept : A
unfoldable pub long : A
pub record Dests (n : ℕ) : Type 0 where
  pub for_pivots : List ℕ
  own : ℕ

pub data End : Type 0 where
  wrote : ℕ → List ℕ
    → End

  -- not a name
  refused : End

data Inner : Type 0 where
  inner : Inner
module _ (k : Key) where
  pub record_size : A
";
    let wanted = [
        "plain",
        "short",
        "long",
        "Dests",
        "for_pivots",
        "End",
        "wrote",
        "refused",
        "record_size",
    ];
    assert_eq!(names("a.antt", text), wanted);
}

#[test]
fn public_in_code() {
    let text = "pub use order::compare;
pub const MAX_LEN: usize = 64;
pub(crate) const INNER: usize = 1;
pub enum Answer {
    // a length
    Value(usize),
    Refused(Refusal),
}
pub struct Pair {
    pub there: bool,
}
impl Pair {
    pub fn absent() -> Self {
    }
    fn malformed(self) -> bool {
    }
}
pub extern \"C\" fn jd_route() {}
pub(crate) fn inner() {}
fn own() {}
";
    let wanted = [
        "MAX_LEN",
        "Answer",
        "Answer::Value",
        "Answer::Refused",
        "Pair",
        "absent",
        "Pair::absent",
        "jd_route",
    ];
    assert_eq!(names("a.rt", text), wanted);
}

#[test]
fn other_files_have_no_public_names() {
    assert_eq!(public("a.h", "pub fn f() {}"), None);
}
