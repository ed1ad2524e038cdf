//! Pivots and edges under another prefix: TranslatePivotPair, TranslatePivots, TranslateEdges.
use crate::image::Image;
use crate::record::{element, one_record, put_all, short, Edge, Element, RECORD_SIZE};
use crate::refusal::{refuse_if, Refusal};
use crate::table::{pivot_records, read_pivots, Pivots};
use crate::tables::table_and_key;
use crate::upper_bound::upper_bound;

/// The bounds of a range under another prefix.
pub(crate) struct Bounds {
    left: Vec<u8>,
    /// `None` is max.
    right: Option<Vec<u8>>,
}

impl Bounds {
    /// "If right is max or lacks the prefix, the new right is the upper bound of the new prefix."
    /// Cause 7 for left alone, then cause 8.
    pub(crate) fn under(
        left: &[u8],
        right: Element,
        prefix: &[u8],
        new_prefix: &[u8],
    ) -> Result<Self, Refusal> {
        let left = Image::of(left, prefix, new_prefix)?;
        left.fit()?;
        let right = match right {
            Element::Key(key) if key.starts_with(prefix) => {
                let right = Image::of(key, prefix, new_prefix)?;
                right.fit()?;
                Some(right.to_vec())
            }
            _ => upper_bound(new_prefix),
        };
        Ok(Bounds {
            left: left.to_vec(),
            right,
        })
    }

    pub(crate) fn elements(&self) -> [Element<'_>; 2] {
        let right = self.right.as_deref().map_or(Element::Max, Element::Key);
        [Element::Key(&self.left), right]
    }
}

/// Writes the bounds of the range from left up to right under the new prefix, two records, and
/// answers 2.
pub fn translate_pivot_pair(
    left: &[u8],
    right: &[u8],
    prefix: &[u8],
    new_prefix: &[u8],
    dest: &mut [u8],
) -> Result<usize, Refusal> {
    let right = one_record(right)?;
    let (left, right) = (short(left)?, element(right)?);
    let bounds = Bounds::under(left, right, short(prefix)?, short(new_prefix)?)?;
    refuse_if(Element::Key(left) >= right, Refusal::NotBelow)?;
    put_all(&bounds.elements(), Element::put, dest)
}

/// The keys under the new prefix: cause 7 for each of them, then cause 8.
fn images<'a>(
    keys: &[Element<'a>],
    prefix: &[u8],
    new_prefix: &'a [u8],
) -> Result<Vec<Image<'a>>, Refusal> {
    let image = |key: &Element<'a>| match key {
        Element::Key(key) => Image::of(key, prefix, new_prefix),
        Element::Max => unreachable!("only the last pivot may be max"),
    };
    let images: Vec<Image> = keys.iter().map(image).collect::<Result<_, _>>()?;
    images.iter().try_for_each(Image::fit)?;
    Ok(images)
}

/// Writes each pivot but the last under the new prefix, and then the given end, which must be
/// "above the last translated key". Answers the pivots written.
pub fn translate_pivots(
    pivots: &[u8],
    prefix: &[u8],
    new_prefix: &[u8],
    end: &[u8],
    dest: &mut [u8],
) -> Result<usize, Refusal> {
    let (pivots, end) = (pivot_records(pivots)?, one_record(end)?);
    let (pivots, end) = (read_pivots(pivots)?, element(end)?);
    let (prefix, new_prefix) = (short(prefix)?, short(new_prefix)?);
    let pivots = Pivots::rising(pivots)?;
    let slots = pivots.all().len() - 1;
    let keys = images(&pivots.all()[..slots], prefix, new_prefix)?;
    let last = keys[slots - 1].to_vec();
    refuse_if(Element::Key(&last) >= end, Refusal::NotBelow)?;
    let dest = dest.get_mut(..(slots + 1) * RECORD_SIZE);
    let (keys_dest, end_dest) = dest
        .ok_or(Refusal::NoRoom)?
        .split_at_mut(slots * RECORD_SIZE);
    put_all(&keys, Image::put_record, keys_dest)?;
    end.put(end_dest)?;
    Ok(slots + 1)
}

/// "TranslateEdges fills an absent edge with the range's prefix, which may be ε". Answers the
/// edges written.
pub fn translate_edges(pivots: &[u8], edges: &[u8], dest: &mut [u8]) -> Result<usize, Refusal> {
    let (pivots, edges, _) = table_and_key(pivots, edges, &[])?;
    let filled = edges.iter().enumerate().map(|(slot, edge)| match edge {
        Edge::To(prefix) => Edge::To(prefix),
        Edge::Absent => Edge::To(pivots.slot_prefix(slot)),
    });
    put_all(&filled.collect::<Vec<_>>(), Edge::put, dest)
}
