//! The two forms: the list, and the short form.
use super::edges::{of_list, of_short, too_many};
use crate::edge::Edge;
use crate::element::Element;
use crate::faults::no_table;
use crate::key::Key;
use crate::lines::{Fault, Field, ListError, Place, Rows};
use crate::refusal::Refusal;
use crate::table::{records_of, RecordPlace, Slot, Table};
use crate::text::{is_max, NO_EDGE};
use crate::{MAX_PIVOTS, MIN_PIVOTS};

const FULL: [&str; 5] = ["slot", "left", "right", "shared", "edge"];
pub const SHORT: [&str; 2] = ["left", "edge"];

/// How the line of a refused input begins.
const REFUSED: &str = "refused";

/// The pivots and edges of a text, what it says that each slot shares, and where they stand.
pub struct Read {
    pub pivots: Vec<Element>,
    pub edges: Vec<Edge>,
    shared: Vec<Option<(Key, Place)>>,
    pivots_at: Vec<Place>,
    edges_at: Vec<Place>,
    end: Place,
}

/// The line with the names of the fields tells the form, or the number of fields of the first.
pub fn read(rows: &Rows) -> Result<Read, ListError> {
    let read = Read::with_room(rows);
    let Some((first, rest)) = rows.rows.split_first() else {
        return read.short(&rows.rows);
    };
    match &first[..] {
        [refused, ..] if is_named(refused, REFUSED) => Err(refused.fault(Fault::NoList)),
        names if are_named(names, &FULL) => read.full(rest),
        names if are_named(names, &SHORT) => read.short(rest),
        [_, _, _, _, _] => read.full(&rows.rows),
        _ => read.short(&rows.rows),
    }
}

/// A name may have letters of either case.
fn is_named(field: &Field, name: &str) -> bool {
    field.text.eq_ignore_ascii_case(name)
}

fn are_named(fields: &[Field], names: &[&str]) -> bool {
    let mut pairs = fields.iter().zip(names);
    fields.len() == names.len() && pairs.all(|(field, name)| is_named(field, name))
}

fn left_key(left: &Field) -> Result<Key, ListError> {
    match is_max(left.text) {
        true => Err(left.fault(Fault::MaxLeft)),
        false => left.read(),
    }
}

impl Read {
    /// A line has a slot at most, and the last slot has an end.
    fn with_room(rows: &Rows) -> Self {
        let most = MAX_PIVOTS.min(rows.rows.len() + 1);
        Read {
            pivots: Vec::with_capacity(most),
            edges: Vec::with_capacity(most),
            shared: Vec::with_capacity(most),
            pivots_at: Vec::with_capacity(most),
            edges_at: Vec::with_capacity(most),
            end: rows.end,
        }
    }

    fn full(mut self, rows: &[Vec<Field>]) -> Result<Self, ListError> {
        for (number, row) in rows.iter().enumerate() {
            let [slot, left, right, shared, edge] = row[..] else {
                return Err(row[0].fault(Fault::Fields(row.len())));
            };
            if slot.text != number.to_string() {
                return Err(slot.fault(Fault::Slot(number)));
            }
            let key = left_key(&left)?;
            self.meets(key)?;
            self.push_pivot(Element::Key(key), &left);
            self.push_edge(of_list(&edge)?, &edge);
            self.shared.push(Some((shared.read()?, shared.place)));
            // The next left takes its place.
            self.push_pivot(right.read()?, &right);
        }
        Ok(self)
    }

    /// Whether the right bound before, if any, is the left one of this slot; it is dropped.
    fn meets(&mut self, key: Key) -> Result<(), ListError> {
        match (self.pivots.pop(), self.pivots_at.pop()) {
            (Some(right), Some(place)) if right != Element::Key(key) => {
                let fault = Fault::Right(key);
                Err(ListError { place, fault })
            }
            _ => Ok(()),
        }
    }

    fn short(mut self, rows: &[Vec<Field>]) -> Result<Self, ListError> {
        let mut ended = false;
        for (row, number) in rows.iter().zip(1..) {
            match row[..] {
                _ if ended => return Err(row[0].fault(Fault::AfterEnd)),
                [left, edge] if is_max(left.text) && number == rows.len() => {
                    return Err(edge.fault(Fault::EndWithEdge));
                }
                [left, edge] => self.short_slot(&left, &edge)?,
                [end] => {
                    self.push_pivot(end.read()?, &end);
                    ended = true;
                }
                _ => return Err(row[2].fault(too_many(row))),
            }
        }
        match ended {
            true => Ok(self),
            false => Err(self.no_end(rows)),
        }
    }

    fn short_slot(&mut self, left: &Field, edge: &Field) -> Result<(), ListError> {
        self.push_pivot(Element::Key(left_key(left)?), left);
        let (read, replaced) = of_short(edge)?;
        self.push_edge(read, edge);
        self.shared.push(replaced.map(|key| (key, edge.place)));
        Ok(())
    }

    /// A last line without an edge may be the end, with a field too many; else the end is missing.
    fn no_end(&self, rows: &[Vec<Field>]) -> ListError {
        match rows.last().map(Vec::as_slice) {
            Some([_, edge]) if edge.text == NO_EDGE => edge.fault(Fault::EndWithEdge),
            _ => ListError {
                place: self.end,
                fault: Fault::NoEnd,
            },
        }
    }

    fn push_edge(&mut self, edge: Edge, field: &Field) {
        self.edges.push(edge);
        self.edges_at.push(field.place);
    }

    fn push_pivot(&mut self, pivot: Element, field: &Field) {
        self.pivots.push(pivot);
        self.pivots_at.push(field.place);
    }

    /// Where the refused table is at fault: at the upper pivot of two that don't rise, at an edge,
    /// at the first pivot too many, or at the end where there are too few.
    pub fn refused(&self, refusal: Refusal) -> ListError {
        let (pivots, edges) = records_of(&self.pivots, &self.edges);
        let record = Table::refused_record(&pivots, &edges);
        let place = match record {
            Some(RecordPlace::Pivot(place)) => self.pivots_at.get(place),
            Some(RecordPlace::Edge(slot)) => self.edges_at.get(slot),
            None => self.pivots_at.get(MAX_PIVOTS),
        };
        let place = *place.unwrap_or(&self.end);
        let fault = Fault::Refused(refusal, self.reason(record));
        ListError { place, fault }
    }

    fn reason(&self, record: Option<RecordPlace>) -> String {
        let Some(record) = record else {
            let count = self.pivots.len();
            return format!(
                "a table has {MIN_PIVOTS} to {MAX_PIVOTS} pivots, and this has {count}"
            );
        };
        let reason = no_table(record, |place| self.pivots.get(place).copied());
        match record {
            RecordPlace::Pivot(_) => reason,
            RecordPlace::Edge(_) => format!("{reason}; no edge is written -"),
        }
    }

    /// Whether the keys of each slot share what the text says of them.
    pub fn check_shared(&self, table: &Table) -> Result<(), ListError> {
        for (number, said) in self.shared.iter().enumerate() {
            let Some((said, place)) = said else {
                continue;
            };
            let slot = table.slot(number);
            if slot.shared != *said {
                let fault = Fault::Shared(slot.shared, edge_for(&slot, said));
                let place = *place;
                return Err(ListError { place, fault });
            }
        }
        Ok(())
    }
}

/// Which edge does in the slot what the text says, if its keys share more than it says: with a
/// bound moved and the edge left as it was, they would be renamed otherwise.
fn edge_for(slot: &Slot, said: &Key) -> String {
    let wanted = slot.edge.prefix();
    let edge = wanted.and_then(|new| slot.shared.change_prefix(said, new).ok());
    match edge.map(Edge::Prefix) {
        Some(edge) => format!("; for {said} to become {}, the edge is {edge}", slot.edge),
        None => String::new(),
    }
}
