//! docs/CALLS.md: the refusals that each call looks for.
use std::collections::HashMap;

pub struct Calls {
    refusals: HashMap<String, Vec<u32>>,
}

impl Calls {
    /// The rows of its tables of calls: the call is first, its refusals third.
    pub fn read(document: &str) -> Self {
        let row = |line: &str| {
            let cells: Vec<&str> = line.split('|').map(str::trim).collect();
            let [_, call, _, refusals, ..] = cells[..] else {
                return None;
            };
            let call = call.strip_prefix('`')?.split_once('`')?.0;
            let numbers: Result<Vec<u32>, _> = refusals.split(", ").map(str::parse).collect();
            Some((call.to_string(), numbers.ok()?))
        };
        Calls {
            refusals: document.lines().filter_map(row).collect(),
        }
    }

    pub fn has(&self, call: &str, number: u32) -> bool {
        self.refusals
            .get(call)
            .is_some_and(|numbers| numbers.contains(&number))
    }
}

#[cfg(test)]
mod tests {
    use super::*;

    #[test]
    fn a_row_says_the_refusals_of_its_call() {
        let calls = Calls::read(
            "| call | arguments | refusals, in order | answers | writes |\n\
             |---|---|---|---|---|\n\
             | `a::b` | pivots, key | 1, 2, 14, 5 | the slot | |\n\
             | `a::c`, in C `jd_c` | a pair | 10 | 1 | |\n\
             | `a::b_part` | a record | | the part | |\n\
             Rules `a::d` | 3\n",
        );
        assert!(calls.has("a::b", 14) && calls.has("a::b", 1) && calls.has("a::c", 10));
        assert!(!calls.has("a::b", 4) && !calls.has("a::d", 3) && !calls.has("a::b_part", 1));
    }
}
