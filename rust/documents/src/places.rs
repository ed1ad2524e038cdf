//! Where all refusals are listed or counted, and where their order is told. A new refusal changes the places, and not
//! this table.

/// Its text stands behind `from`, which the file has once, and ends at `to`.
pub struct Place {
    pub path: &'static str,
    pub says: Says,
    pub from: &'static str,
    pub to: &'static str,
}

pub enum Says {
    /// A line for each, by number: from the line after `from` on, up to one that begins with `to`, or is empty where `to`
    /// is. Lines of comments are passed over. What `{name}`, `{c}` and `{number}` stand for says `Numbering::filled`; a
    /// `*` stands for any text.
    Lines(&'static str),
    /// The names in a row, by number, with this mark between them.
    Names(&'static str),
    /// The numbers in a row, by turn, with commas between them.
    Order,
    /// How many there are, in digits or as a word: where numbers begin with 1, the last number too.
    Count,
    /// The one with the last number, by its name in C.
    Last,
}

pub const PLACES: &[Place] = &[
    place(
        "crates/model/src/lib.rt",
        Says::Lines("{name},"),
        "pub enum Refusal {",
        "}",
    ),
    place(
        "crates/model/src/lib.rt",
        Says::Lines("Refusal::{name} => {number},"),
        "match r {",
        "}",
    ),
    place(
        "crates/model/specs/calls/Refusals.antt",
        Says::Count,
        "table \"Refusals\", and 11 to ",
        ":",
    ),
    place(
        "crates/model/specs/list/ShelfList.antt",
        Says::Count,
        "at most 63 slots, and ",
        " refusals",
    ),
    place(
        "crates/model/proofs/CallRows.antt",
        Says::Names("∷"),
        "\nrefusals =",
        "[]",
    ),
    place(
        "crates/model/proofs/CallRows.antt",
        Says::Count,
        "table \"Refusals\", and then 11 to ",
        "\n",
    ),
    place(
        "crates/model/proofs/CallRows.antt",
        Says::Count,
        "abbrev pub one_to_",
        " :",
    ),
    place(
        "crates/listing/proofs/Listed.antt",
        Says::Lines("number_small {name} n e = *"),
        "pub number_small :",
        "",
    ),
    place(
        "include/joistdenim.h",
        Says::Order,
        "in which the function names them: ",
        ".",
    ),
    place(
        "include/joistdenim.h",
        Says::Lines("{c} = {number}*"),
        "enum jd_refusal {",
        "}",
    ),
    place(
        "include/joistdenim.h",
        Says::Lines("case {c}: return \"*\";"),
        "case 0: return \"accepted\";",
        "default:",
    ),
    place("tests/c/refusals.c", Says::Last, "number <= ", ";"),
    place(
        "rust/joistdenim/src/refusal.rs",
        Says::Lines("{name} = {number}: \"*\","),
        "\nrefusals! {",
        "}",
    ),
    place(
        "rust/joistdenim/src/refusal.rs",
        Says::Count,
        "/// The number, 1 to ",
        ".",
    ),
    place(
        "rust/joistdenim/src/refusal.rs",
        Says::Count,
        "for number in 1..=",
        " {",
    ),
    place(
        "rust/joistdenim/tests/header.rs",
        Says::Lines("(\"{c}\", Refusal::{name}),"),
        "const REFUSALS: ",
        "]",
    ),
    place(
        "rust/reference/src/refusal.rs",
        Says::Lines("{name} = {number},"),
        "pub enum Refusal {",
        "}",
    ),
    place(
        "rust/reference/src/lib.rs",
        Says::Order,
        "The order is ",
        ".",
    ),
    place(
        "README.md",
        Says::Count,
        "lists the **calls**, the ",
        " numbered **refusals**",
    ),
    place(
        "docs/CALLS.md",
        Says::Order,
        "Each list goes by one order, ",
        ", which isn't",
    ),
    place(
        "docs/CALLS.md",
        Says::Lines("| {number} | `{name}` | `{c}` | *"),
        "| number | in Rattle and Rust | in C | cause |\n|---|---|---|---|",
        "",
    ),
    place("docs/FORMAT.md", Says::Order, "The order is ", ":"),
    place(
        "docs/FORMAT.md",
        Says::Lines("| {number} | `{name}` | *"),
        "| number | name | cause | for example |\n|---|---|---|---|",
        "",
    ),
    place(
        "docs/DECISIONS.md",
        Says::Order,
        "Which order is that? | ",
        " (`turn`)",
    ),
    place(
        "docs/BELIEVED.md",
        Says::Count,
        "`Reading` | the ",
        " refusals",
    ),
    place(
        "docs/BELIEVED.md",
        Says::Count,
        "`outcome`, `paired` | 1 to ",
        ";",
    ),
];

pub const fn place(path: &'static str, says: Says, from: &'static str, to: &'static str) -> Place {
    Place {
        path,
        says,
        from,
        to,
    }
}
