//! The records of a table, and what the archive makes of them.
use super::inputs::Table;
use crate::answers;
use joistdenim::Refusal;

/// A call that writes a table: pivots, edges and a key; then the destinations.
type Writes = fn(&[u8], &[u8], &[u8], &mut [u8], &mut [u8]) -> Result<usize, Refusal>;

/// Pivots and edges, as records.
#[derive(Clone, Debug, PartialEq)]
pub struct Records {
    pub pivots: Vec<u8>,
    pub edges: Vec<u8>,
}

impl Records {
    pub fn of(table: &Table) -> Self {
        Records {
            pivots: table.pivots.clone(),
            edges: table.edges.clone(),
        }
    }

    /// What the archive leaves, exactly the records that it wrote, in destinations of these
    /// lengths; or the refusal's number.
    fn written(
        [pivots, edges]: [usize; 2],
        call: impl FnOnce(&mut [u8], &mut [u8]) -> Result<usize, Refusal>,
    ) -> Result<Self, u32> {
        let (mut pivots, mut edges) = (vec![7; pivots], vec![7; edges]);
        let written = call(&mut pivots, &mut edges).map_err(Refusal::number)?;
        pivots.truncate(66 * written);
        edges.truncate(66 * (written - 1));
        Ok(Records { pivots, edges })
    }

    pub fn cut(&self, split: Writes, key: &[u8]) -> Result<Self, u32> {
        let dests = [self.pivots.len(), self.edges.len()];
        Self::written(dests, |p, e| split(&self.pivots, &self.edges, key, p, e))
    }

    pub fn inserted(&self, key: &[u8]) -> Result<Self, u32> {
        let dests = [self.pivots.len() + 66, self.edges.len() + 66];
        Self::written(dests, |p, e| {
            joistdenim::insert_pivot(&self.pivots, &self.edges, key, p, e)
        })
    }

    /// This table and then the second one, which begins where it ends.
    pub fn joined(&self, second: &Self) -> Result<Self, u32> {
        let (p1, e1, p2, e2) = (&self.pivots, &self.edges, &second.pivots, &second.edges);
        let dests = [p1.len() + p2.len() - 66, e1.len() + e2.len()];
        Self::written(dests, |p, e| joistdenim::join(p1, e1, p2, e2, p, e))
    }

    /// The table up to its pivot at this place.
    pub fn up_to(&self, place: usize) -> Self {
        Records {
            pivots: self.pivots[..66 * (place + 1)].to_vec(),
            edges: self.edges[..66 * place].to_vec(),
        }
    }

    /// The table from its pivot at this place on.
    pub fn from(&self, place: usize) -> Self {
        Records {
            pivots: self.pivots[66 * place..].to_vec(),
            edges: self.edges[66 * place..].to_vec(),
        }
    }

    /// The table up to and from its pivot at this place.
    pub fn halves(&self, place: usize) -> [Self; 2] {
        [self.up_to(place), self.from(place)]
    }

    /// The key translated by the archive, or the refusal's number.
    pub fn translated(&self, key: &[u8]) -> Result<Vec<u8>, u32> {
        answers::key(|dest| joistdenim::translate_key(&self.pivots, &self.edges, key, dest))
    }
}
