//! The refusals as they are defined: `number` gives each its number, and `turn` its turn in the order of all.
use crate::repository::Repository;

/// Where both are.
pub const DEFINITIONS: &str = "crates/model/specs/calls/Refusals.antt";

pub struct Numbering {
    numbers: Vec<Clause>,
    turns: Vec<Clause>,
}

/// A clause of `number` or of `turn`: what it gives this refusal, and its line.
struct Clause {
    refusal: String,
    value: usize,
    line: usize,
}

impl Numbering {
    pub fn of(repository: &Repository) -> Self {
        let text = repository.text(DEFINITIONS).unwrap_or("");
        Numbering {
            numbers: clauses(text, "number "),
            turns: clauses(text, "turn "),
        }
    }

    pub fn count(&self) -> usize {
        self.numbers.len()
    }

    pub fn name(&self, number: usize) -> Option<&str> {
        let clause = self.numbers.iter().find(|clause| clause.value == number)?;
        Some(&clause.refusal)
    }

    pub fn turn(&self, number: usize) -> Option<usize> {
        let name = self.name(number)?;
        let clause = self.turns.iter().find(|clause| clause.refusal == name)?;
        Some(clause.value)
    }

    /// By number.
    pub fn names(&self) -> impl Iterator<Item = &str> {
        self.numbers.iter().map(|clause| clause.refusal.as_str())
    }

    /// The template for each, by number: `{name}` stands for its name, `{c}` for its name in C, `{number}` for its
    /// number.
    pub fn filled(&self, template: &str) -> Vec<String> {
        let fill = |clause: &Clause| {
            let named = template.replace("{name}", &clause.refusal);
            let in_c = named.replace("{c}", &c_name(&clause.refusal));
            in_c.replace("{number}", &clause.value.to_string())
        };
        self.numbers.iter().map(fill).collect()
    }

    /// The numbers by turn.
    pub fn order(&self) -> Vec<String> {
        let number = |turn: &Clause| {
            let of_it = self.numbers.iter().find(|n| n.refusal == turn.refusal)?;
            Some(of_it.value.to_string())
        };
        self.turns.iter().filter_map(number).collect()
    }

    /// What keeps it from being a count and an order, each with its line: a number or a turn left out or given twice, a
    /// refusal with only one of both.
    pub fn faults(&self) -> Vec<(usize, String)> {
        let mut faults = vec![];
        let both = [
            (&self.numbers, &self.turns, "number", "turn"),
            (&self.turns, &self.numbers, "turn", "number"),
        ];
        for (clauses, others, what, other) in both {
            for (i, clause) in clauses.iter().enumerate() {
                let Clause { refusal, value, .. } = clause;
                let wanted = i + 1;
                if *value != wanted {
                    let fault =
                        format!("`{what} {refusal} = {value}` stands where {wanted} is due");
                    faults.push((clause.line, fault));
                }
                if !others.iter().any(|o| o.refusal == *refusal) {
                    faults.push((clause.line, format!("`{refusal}` has no {other}")));
                }
            }
        }
        faults
    }
}

/// The clauses of this head, by value.
fn clauses(text: &str, head: &str) -> Vec<Clause> {
    let clause = |(i, line): (usize, &str)| {
        let (refusal, value) = line.strip_prefix(head)?.split_once(" = ")?;
        Some(Clause {
            refusal: refusal.to_string(),
            value: value.trim().parse().ok()?,
            line: i + 1,
        })
    };
    let mut found: Vec<Clause> = text.lines().enumerate().filter_map(clause).collect();
    found.sort_by_key(|clause| clause.value);
    found
}

/// `JD_NO_ROOM` of `NoRoom`.
fn c_name(name: &str) -> String {
    let mut c_name = "JD".to_string();
    for c in name.chars() {
        if c.is_uppercase() {
            c_name.push('_');
        }
        c_name.extend(c.to_uppercase());
    }
    c_name
}

/// A count below 100 as a word.
pub fn in_words(count: usize) -> String {
    const FIRST: [&str; 20] = [
        "no",
        "one",
        "two",
        "three",
        "four",
        "five",
        "six",
        "seven",
        "eight",
        "nine",
        "ten",
        "eleven",
        "twelve",
        "thirteen",
        "fourteen",
        "fifteen",
        "sixteen",
        "seventeen",
        "eighteen",
        "nineteen",
    ];
    const TENS: [&str; 8] = [
        "twenty", "thirty", "forty", "fifty", "sixty", "seventy", "eighty", "ninety",
    ];
    if let Some(word) = FIRST.get(count) {
        return word.to_string();
    }
    match (TENS.get(count / 10 - 2), count % 10) {
        (None, _) => count.to_string(),
        (Some(tens), 0) => tens.to_string(),
        (Some(tens), ones) => format!("{tens}-{}", FIRST[ones]),
    }
}
