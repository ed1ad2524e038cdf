//! The tables that the cases of a group lend, for the list and back.
use crate::asked::Asked;
use crate::call::Call;
use crate::list_inputs::joined;
use crate::table_inputs::absent;
use std::collections::HashMap;
use std::hash::{DefaultHasher, Hash, Hasher};

#[derive(Default)]
pub struct LentTables {
    /// By their hashes, the same in every group, so that a table is hashed once.
    inputs: HashMap<u64, Vec<u8>>,
    /// Those of the last case: cases of the same table come one after the other.
    last: Vec<[Vec<u8>; 2]>,
}

impl LentTables {
    /// Where no edges are lent, no slot has one.
    pub fn take(&mut self, call: &Call, asked: &Asked) {
        let same = call
            .tables(asked)
            .eq(self.last.iter().map(|[pivots, edges]| [&pivots[..], edges]));
        if same {
            return;
        }
        let count = call.tables(asked).count();
        self.last.resize_with(count, Default::default);
        for ([pivots, edges], last) in call.tables(asked).zip(&mut self.last) {
            pivots.clone_into(&mut last[0]);
            edges.clone_into(&mut last[1]);
            let input = match edges.is_empty() {
                true => joined(pivots, &absent((pivots.len() / 66).saturating_sub(1))),
                false => joined(pivots, edges),
            };
            let mut hasher = DefaultHasher::new();
            input.hash(&mut hasher);
            self.inputs.insert(hasher.finish(), input);
        }
    }

    /// Each with its hash.
    pub fn inputs(&self) -> impl Iterator<Item = (u64, &[u8])> {
        self.inputs.iter().map(|(hash, input)| (*hash, &input[..]))
    }
}
