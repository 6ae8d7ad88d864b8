//! Finding rows of a sound board: by the index of the soundness test, or by walking the rows.

use crate::board::{Reference, Row, Standing, ROWS};
use crate::index::Index;
use crate::rows;

pub trait Lookup {
    /// The place of a leg.
    fn leg(&self, rows: &[Row; ROWS], leg: u32) -> Option<usize>;
    /// The place of the call with a reference.
    fn reference(&self, rows: &[Row; ROWS], reference: Reference) -> Option<usize>;
    /// The lowest empty row.
    fn lowest_empty(&self, rows: &[Row; ROWS]) -> Option<usize>;
    /// How many LinkIds are live.
    fn live(&self, rows: &[Row; ROWS]) -> usize;
}

impl Lookup for Index {
    #[inline]
    fn leg(&self, rows: &[Row; ROWS], leg: u32) -> Option<usize> {
        Index::leg(self, rows, leg)
    }

    #[inline]
    fn reference(&self, rows: &[Row; ROWS], reference: Reference) -> Option<usize> {
        Index::reference(self, rows, reference)
    }

    #[inline]
    fn lowest_empty(&self, _: &[Row; ROWS]) -> Option<usize> {
        Index::lowest_empty(self)
    }

    #[inline]
    fn live(&self, _: &[Row; ROWS]) -> usize {
        Index::live(self)
    }
}

/// For a board that was not tested at this event, so that no index of it was made.
pub struct Walk;

impl Lookup for Walk {
    #[inline]
    fn leg(&self, rows: &[Row; ROWS], leg: u32) -> Option<usize> {
        rows.iter().position(|row| row.leg == leg && !empty(row))
    }

    #[inline]
    fn reference(&self, rows: &[Row; ROWS], reference: Reference) -> Option<usize> {
        rows.iter().position(|row| row.call().is_some_and(|call| call.reference == reference))
    }

    #[inline]
    fn lowest_empty(&self, rows: &[Row; ROWS]) -> Option<usize> {
        rows.iter().position(empty)
    }

    #[inline]
    fn live(&self, rows: &[Row; ROWS]) -> usize {
        rows::live(rows)
    }
}

#[inline]
fn empty(row: &Row) -> bool {
    matches!(row.standing, Standing::Empty)
}
