//! Two events beside each other in a log that was played, with what they found.

use crate::board::{Board, Call, Reference, Row, Standing};
use crate::either_order::{Played, Step};
use crate::order_past::Past;
use crate::rules::RuleSet;
use crate::stepped::reference;

pub struct Couple<'a> {
    pub records: &'a [&'a [u8]],
    pub played: &'a Played,
    /// Of the first of the two, from 0.
    pub place: usize,
    pub references: [Reference; 2],
    /// What has been in front of them.
    pub past: &'a Past,
}

impl<'a> Couple<'a> {
    pub fn new(
        records: &'a [&'a [u8]],
        played: &'a Played,
        place: usize,
        past: &'a Past,
    ) -> Option<Couple<'a>> {
        let references = [reference(records[place])?, reference(records[place + 1])?];
        Some(Couple { records, played, place, references, past })
    }

    pub fn two(&self) -> [&'a [u8]; 2] {
        [self.records[self.place], self.records[self.place + 1]]
    }

    pub fn returned(&self) -> [u8; 2] {
        [0, 1].map(|second| self.played.steps[self.place + second].returned)
    }

    pub fn accepted(&self) -> bool {
        self.returned() == [0, 0]
    }

    pub fn before(&self) -> &'a Board {
        self.played.before(self.place)
    }

    pub fn after(&self) -> &'a Board {
        &self.played.steps[self.place + 1].after
    }

    pub fn rules(&self) -> RuleSet {
        self.before().rules()
    }

    /// The rows of the calls that they name, with their places.
    pub fn rows(&self) -> [Option<(usize, &'a Row)>; 2] {
        self.references.map(|reference| row_of(self.before(), reference))
    }

    pub fn calls(&self) -> [Option<&'a Call>; 2] {
        self.rows().map(|row| row.and_then(|(_, row)| row.call()))
    }

    /// The record right behind the two, and what it came to.
    pub fn next(&self) -> Option<(&'a [u8], &'a Step)> {
        let place = self.place + 2;
        Some((self.records.get(place)?, self.played.steps.get(place)?))
    }

    /// The one right in front.
    pub fn last(&self) -> Option<(&'a [u8], &'a Step)> {
        let place = self.place.checked_sub(1)?;
        Some((self.records[place], &self.played.steps[place]))
    }
}

pub fn row_of(board: &Board, reference: Reference) -> Option<(usize, &Row)> {
    board.rows.iter().enumerate().find(|(_, row)| row.call().is_some_and(|call| call.reference == reference))
}

pub fn taken(board: &Board) -> impl Iterator<Item = (usize, &Row)> {
    board.rows.iter().enumerate().filter(|(_, row)| row.standing != Standing::Empty)
}
