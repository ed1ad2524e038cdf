//! The plain cut of a table at two keys, which a right and a left cut leave in either order. It
//! is no call, and it is made of no cut.
use crate::record::{short, Edge, Element};
use crate::refusal::{refuse_if, Refusal};
use crate::table::Pivots;
use crate::tables::table_and_key;

/// What the plain cut leaves.
#[derive(Debug, PartialEq, Eq)]
pub struct PlainCut {
    pub pivots: Vec<Vec<u8>>,
    /// `None` is "no edge". An edge may have any length here.
    pub edges: Vec<Option<Vec<u8>>>,
}

/// "The plain cut at l and r has as pivots l, the old ones strictly between l and r, and r. Each
/// of its slots lies in one old slot; its edge, of any length here, is the old slot's edge
/// followed by what its own range's prefix has beyond the old range's, and where the old slot
/// has no edge it has none." Causes 1 to 4 as of any table; 9 where l isn't below r, and 5 where
/// l is below the first pivot or r above the last.
pub fn plain_cut(pivots: &[u8], edges: &[u8], l: &[u8], r: &[u8]) -> Result<PlainCut, Refusal> {
    let (old, edges, left) = table_and_key(pivots, edges, l)?;
    let right = Element::Key(short(r)?);
    refuse_if(left >= right, Refusal::NotBelow)?;
    refuse_if(
        left < old.first() || right > old.last(),
        Refusal::OutOfRange,
    )?;
    let between = old.all().iter().filter(|p| left < **p && **p < right);
    let pivots = [left].into_iter().chain(between.copied()).chain([right]);
    let new = Pivots::rising(pivots.collect())?;
    let edge = |slot| {
        let old_slot = old.route(new.all()[slot])?;
        Ok(match edges[old_slot] {
            Edge::To(edge) => {
                let prefix = new
                    .slot_prefix(slot)
                    .strip_prefix(old.slot_prefix(old_slot));
                let beyond = prefix.expect("a range inside another goes on from its prefix");
                Some([edge, beyond].concat())
            }
            Edge::Absent => None,
        })
    };
    let edges = (0..new.all().len() - 1).map(edge);
    Ok(PlainCut {
        edges: edges.collect::<Result<_, Refusal>>()?,
        pivots: new.all().iter().map(bytes).collect(),
    })
}

/// The bytes of a plain cut's pivot, which is a key: it isn't above r.
fn bytes(pivot: &Element) -> Vec<u8> {
    match pivot {
        Element::Key(key) => key.to_vec(),
        Element::Max => unreachable!("max is above every key"),
    }
}
