//! A repository small enough to read, in which everything is right, and changes of it.
use crate::report::Report;
use crate::repository::Repository;

pub const SOURCE: &str = "docs/src/lib/Buckets/BoundedPivotsLib.i.dfy";
pub const DOCUMENT: &str = "docs/CONTRACTS.md";
pub const THEOREMS: &str = "crates/contracts/proofs/Tables.antt";
pub const SPECS: &str = "crates/model/specs/Tables.antt";
pub const CODE: &str = "crates/tables/src/lib.rt";
pub const HEADER: &str = "include/tables.h";
pub const NUMBERS: &str = crate::numbering::DEFINITIONS;

const FILES: [(&str, &str); 9] = [
    (
        SOURCE,
        "module BoundedPivotsLib {
  // the last pivot bounds no key
  predicate WFPivots(pt: PivotTable)
  requires |pt| > 1
  {
  }
  method GetKey(pt: PivotTable) returns (k: Key)
  requires WFPivots(pt)
  requires |pt| < 9
  requires Fits(pt)
  ensures k.Some? ==> (
    && IsPrefix(k, pt)
    && Last(pt) == k
  )
  {
  }
  type Pkv = seq<Key>
}
",
    ),
    (
        "docs/src/lib/Buckets/TranslationLib.i.dfy",
        "type Edge = Key\n",
    ),
    ("docs/src/lib/Buckets/TranslationImpl.i.dfy", ""),
    (
        DOCUMENT,
        r"# Contracts

Clauses: 6. Implied by a theorem: 1. Replaced by a theorem: 1. Refusals: 1. Total definitions: 1. Dropped: 2.

## Sentences of document 01

| mark | sentence |
|---|---|
| S1 | Weights have no twin. |

## BoundedPivotsLib.i.dfy

| line | clause | status | evidence | remark |
|---|---|---|---|---|
| 2 | `the last pivot bounds no key` | implied | `crates/contracts/proofs/Tables.antt:bounded_pivots_2` | |
| 3 | `predicate WFPivots(pt: PivotTable)` | defined | `crates/model/specs/Tables.antt:WFPivots` | |
| 4 | `requires \|pt\| > 1` | total | `crates/model/specs/Tables.antt:WFPivots` | |
| 7 | `method GetKey(pt: PivotTable) returns (k: Key)` | replaced | `crates/tables/src/lib.rt:Table::get_key`, `include/tables.h:get_key` | by place |
| 8 | `requires WFPivots(pt)` | refusal 1-3 | `crates/contracts/proofs/Tables.antt:bounded_pivots_8` | |
| 9 | `requires \|pt\| < 9` | dropped | `crates/tables/src/lib.rt:MAX_PIVOTS` | |
| 10 | `requires Fits(pt)` | dropped | | S1 |
| 11 | `ensures k.Some? ==> (` | parts | | |
| 12 | `&& IsPrefix(k, pt)` | implied | `crates/contracts/proofs/Tables.antt:bounded_pivots_12` | |
| 13 | `&& Last(pt) == k )` | replaced | `crates/contracts/proofs/Tables.antt:bounded_pivots_13b` | at 64 bytes |
| 17 | `type Pkv = seq<Key>` | dropped | | S1 |

## TranslationLib.i.dfy

| line | clause | status | evidence | remark |
|---|---|---|---|---|
| 1 | `type Edge = Key` | defined | `crates/model/specs/Tables.antt:edge` | |

## TranslationImpl.i.dfy

Nothing.
",
    ),
    (
        THEOREMS,
        "-- Theorems

-- the last pivot bounds no key
pub bounded_pivots_2 : A
bounded_pivots_2 = refl

-- requires WFPivots(pt)
pub bounded_pivots_8 : WFPivots A
    → Refuses refused 3 B
bounded_pivots_8 = refl

-- && IsPrefix(k, pt)
pub bounded_pivots_12 : A

module _ (k : Key) where
  -- && Last(pt)
  --   == k )
  -- where k has 64 bytes
  pub bounded_pivots_13b : A

pub shared_law : A
",
    ),
    (
        SPECS,
        "abbrev pub WFPivots : Type 0
pub data Edge : Type 0 where
  -- none or one
  none : Edge
  edge : Key
    → Edge
hidden : Type 0
",
    ),
    (
        CODE,
        "pub struct Table {
    pub many: u8,
}

impl Table {
    pub fn get_key(self) -> u8 {}
}

pub const MAX_PIVOTS: u8 = 64;
pub(crate) const SLOTS: u8 = 63;
",
    ),
    (HEADER, "uint32_t get_key(void);\n"),
    (
        NUMBERS,
        "number Shape = 1\nnumber Malformed = 2\nnumber Unsorted = 3\n",
    ),
];

/// The sample with one text of one file replaced; it must be there.
pub fn with(path: &str, from: &str, to: &str) -> Repository {
    replaced(&FILES, path, from, to)
}

/// The same of any files.
pub fn replaced(files: &[(&str, &str)], path: &str, from: &str, to: &str) -> Repository {
    let text = files.iter().find(|(p, _)| *p == path).unwrap().1;
    assert_eq!(text.matches(from).count(), 1, "{from}");
    Repository::of(&[files, &[(path, &text.replace(from, to))]].concat())
}

/// The sample with more files, or with other texts of them.
pub fn also(files: &[(&str, &str)]) -> Repository {
    Repository::of(&[&FILES, files].concat())
}

pub fn unchanged() -> Repository {
    also(&[])
}

/// A failure for each of these words, and no other.
#[track_caller]
pub fn fails(report: &Report, wanted: &[&str]) {
    let failures = &report.failures;
    assert_eq!(failures.len(), wanted.len(), "{failures:#?}");
    for words in wanted {
        let is_there = |failure: &String| failure.contains(words);
        assert!(failures.iter().any(is_there), "{words}: {failures:#?}");
    }
}
