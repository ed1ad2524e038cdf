//! The question of parent and child against the archive's other calls.
use super::children::child;
use crate::answers;
use crate::call::Hex;
use crate::cuts::inputs::{good_table, Table};
use crate::group::Group;
use crate::inputs::Xorshift;
use joistdenim::{contains_range, get_key, pivot_key, pivot_lcp, translate_pivot_pair, Refusal};

const SEED: u64 = 20_350_627;

/// What `contains_range` says of the child and the slot's bounds: as they are without an edge,
/// else those of `translate_pivot_pair`, from the range's prefix to the edge.
fn by_other_calls(table: &Table, child: &[u8], slot: usize) -> Result<bool, u32> {
    let left = get_key(&table.pivots, slot as u64).map_err(Refusal::number)?;
    let right = &table.pivots[66 * (slot + 1)..][..66];
    let edge = pivot_key(&table.edges[66 * slot..][..66]);
    let answer = match edge {
        Err(_) => contains_range(child, left, right),
        Ok(edge) => {
            let prefix = pivot_lcp(left, right).map_err(Refusal::number)?;
            let bounds =
                answers::records(|dest| translate_pivot_pair(left, right, prefix, edge, dest))?;
            let (left, right) = bounds.split_at(66);
            let left = pivot_key(left).map_err(Refusal::number)?;
            contains_range(child, left, right)
        }
    };
    answer.map_err(Refusal::number)
}

pub fn holds_range(group: &mut Group, count: usize) {
    let mut random = Xorshift::new(SEED);
    let mut seen = [0; 3];
    for _ in 0..count {
        let table = good_table(&mut random);
        let slot = random.below(table.slots());
        let child = child(&mut random, &table, slot);
        if joistdenim::wf_pivots(&child).is_err() {
            continue;
        }
        let (p, e) = (&table.pivots, &table.edges);
        let answer = joistdenim::parent_keys_in_child_range(p, e, &child, slot as u64);
        let answer = answer.map_err(Refusal::number);
        let wanted = by_other_calls(&table, &child, slot);
        group.check(answer == wanted, || {
            let (p, e, c) = (Hex(p), Hex(e), Hex(&child));
            format!("{p}, {e}, {c}, slot {slot}: {answer:?}, by other calls {wanted:?}")
        });
        seen[answer.map_or(2, usize::from)] += 1;
    }
    group.sorts(&seen);
}
