//! A repository small enough to read: definitions, a claim, a call with its contract, and the list of what must be believed.
use crate::believed::DOCUMENT;
use crate::roots::CALLS;

const TYPES: &str = "crates/model/src/lib.rt";
pub const KEY: &str = "crates/model/specs/keys/Key.antt";
pub const KEY_CALLS: &str = "crates/model/specs/calls/KeyCalls.antt";
pub const CLAIM: &str = "crates/model/specs/cuts/TwoOrders.antt";
pub const LAWS: &str = "crates/model/proofs/cuts/TwoOrders.antt";
pub const CODE: &str = "crates/keys/src/lib.rt";
pub const BOUNDARY: &str = "crates/joistdenim/src/lib.rt";

pub const FILES: [(&str, &str); 11] = [
    (
        TYPES,
        "pub enum Refusal {\n    Shape,\n}\n\npub enum Answer {\n    Value(usize),\n    Refused(Refusal),\n}\n\nfn other() -> Unused {}\n\npub enum Unused {}\n",
    ),
    (
        KEY,
        "-- Keys; spare is told of here
use Rattle.std.specs.Prelude.{List}

abbrev pub Key : Type 0
Key = List ℕ

-- not spare
unfoldable pub too_long : Key → Bool
too_long k = ltb limit (length k)

limit : ℕ
limit = 64

pub record Pair : Type 0 where
  pub spare : Key

unfoldable pub spare : Key → Key
spare k = k
",
    ),
    (
        "crates/model/specs/calls/Refusals.antt",
        "use Rattle.model.specs.declared.Refusal.{Refusal}
use Rattle.model.specs.declared.Answer.{Answer}
use Rattle.model.specs.declared.Answer.TheVariants as answers

infix 5 ◌⇒◌
pub data Cause : Type 0 where
  ◌⇒◌ : Bool → Refusal → Cause

abbrev pub answer : List Cause → ℕ → Answer
answer causes n = answers.Value n
",
    ),
    (
        KEY_CALLS,
        "use Rattle.model.specs.declared.Refusal.TheVariants.{Shape}
use Rattle.model.specs.declared.Answer.{Answer}
use Rattle.model.specs.keys.Key.{Key, too_long, Pair}
use Rattle.model.specs.calls.Refusals.{Cause, ◌⇒◌, answer}
use Rattle.model.specs.inner.Places.{place_of}

abbrev pub key_causes : Pair → List Cause
key_causes p = (too_long p.spare ⇒ Shape) ∷ []

abbrev pub key_answer : Pair → Answer
key_answer p = answer (key_causes p) 1
",
    ),
    ("crates/model/specs/inner/Places.antt", "abbrev pub place_of : ℕ\nplace_of = 0\n"),
    (
        CLAIM,
        "use Rattle.model.specs.declared.Unused.{Unused}
use Rattle.model.specs.keys.Key.{Pair}
use Rattle.model.specs.calls.KeyCalls.{key_answer}

pub record TwoOrders (k : Pair) : Type 0 where
  pub exactly : key_answer k ≡ key_answer k

abbrev pub Demand3 : Type 0
Demand3 = (k : Pair) → TwoOrders k
",
    ),
    (
        LAWS,
        "use Rattle.model.specs.cuts.TwoOrders.{TwoOrders, Demand3}

pub one_order : TwoOrders
    → TwoOrders

pub two_orders : Demand3
two_orders k = refl
",
    ),
    (
        CODE,
        "ghost use Rattle.model.specs.keys.Key.{spare};
ghost use Rattle.model.specs.calls.KeyCalls.{key_answer};
ghost use Rattle.model.specs.inner.Places.{place_of};

pub fn key(k: &[u8]) -> Answer
    ensures { result ≡ key_answer k.now }
{
    leaf(k)
}

// Not a call.
pub fn leaf(k: &[u8]) -> Answer
    ensures { result ≡ spare place_of }
{
    k
}
",
    ),
    (
        BOUNDARY,
        "ghost use Rattle.model.specs.calls.KeyCalls.{key_answer};
ghost use Rattle.model.specs.keys.Key.{spare};

pub extern \"C\" fn jd_key(k: &[u8]) -> u32
    ensures { result ≡ key_answer k.now }
{
    0
}
",
    ),
    (CALLS, "| call | arguments |\n|---|---|\n| `keys::key`, in C `jd_key` | a `keys::pair` |\n"),
    (
        DOCUMENT,
        "# Believed

## Definitions

| file | definitions | what they say |
|---|---|---|
| `crates/model/src/lib.rt` | `Refusal`, `Answer` | why not, or how much |
| `keys/Key` | `Key`, `limit`, `too_long` | at most 64 |
| `keys/Key` | `Pair` | one |
| `calls/Refusals` | `Cause`, `answer` | the first |
| `calls/KeyCalls` | `key_causes`, `key_answer` | the call |

## Claims

| file | claim | what it says |
|---|---|---|
| `cuts/TwoOrders` | `TwoOrders` | alike |
| `cuts/TwoOrders` | `Demand3` | for all |
",
    ),
];
