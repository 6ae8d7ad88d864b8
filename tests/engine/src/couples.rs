//! A log under construction with two Progress or Hold events, of different references, beside each other.

use crate::board::{Board, Reference, Row, ROWS};
use crate::event::{FACILITY, HOLD, INFORM, PROGRESS};
use crate::rng::Rng;
use crate::script::Script;
use crate::stepped::{events, permitted};

pub struct Couples<'a> {
    pub script: Script<'a>,
    /// References that the last event opened, ended or named.
    lately: Vec<Reference>,
}

fn references(board: &Board) -> Vec<Reference> {
    board.rows.iter().filter_map(Row::call).map(|call| call.reference).collect()
}

impl<'a> Couples<'a> {
    pub fn new(rng: &'a mut Rng, subscribed: u8, alerting: u8) -> Couples<'a> {
        Couples { script: Script::new(rng, subscribed, alerting), lately: Vec::new() }
    }

    /// Adds an event of another log and plays it.
    pub fn event(&mut self, record: &[u8]) {
        let before = references(&self.script.board);
        self.script.put(record);
        let after = references(&self.script.board);
        let missing = |from: &[Reference], of: &[Reference]| -> Vec<Reference> {
            of.iter().copied().filter(|reference| !from.contains(reference)).collect()
        };
        let opened = missing(&before, &after);
        self.lately = missing(&after, &before);
        self.lately.extend(&opened);
        self.script.old_references.extend(opened);
        if let [PROGRESS | HOLD | FACILITY | INFORM, high, low, _, ..] = *record {
            let named = Reference(u16::from_be_bytes([high, low]));
            self.lately.extend(Some(named).filter(|named| named.valid()));
        }
    }

    pub fn percent(&mut self, chance: usize) -> bool {
        self.script.rng.percent(chance)
    }

    /// Two such events, at times with more behind them.
    pub fn couple(&mut self) {
        match self.script.rng.weighted(&[52, 26, 22]) {
            0 => {
                let first = self.some_reference();
                let second = self.other_than(first);
                self.put(first, second);
            }
            1 => {
                let first = self.situated();
                let second = if self.percent(70) { self.situated() } else { first };
                let second = if second == first { self.other_than(first) } else { second };
                self.put(first, second);
            }
            _ => {
                if let Some([first, second]) = self.transferred().filter(|_| self.script.rng.percent(15)) {
                    self.put(first, second);
                }
            }
        }
    }

    fn put(&mut self, first: Reference, second: Reference) {
        for record in [first, second].map(|reference| self.event_on(reference)) {
            self.script.put(&record);
        }
        match self.script.rng.below(100) {
            0..35 => {
                let reference = self.script.rng.pick(&[first, second]);
                self.follow(reference);
            }
            35..45 => {
                let third = self.some_reference();
                let fourth = self.other_than(third);
                self.put(third, fourth);
            }
            _ => {}
        }
    }

    /// Of a call, lately seen, of a call that has gone, or of none ever.
    pub fn some_reference(&mut self) -> Reference {
        let last = self.script.board.rows[ROWS - 1].call();
        let reference = match self.script.rng.weighted(&[54, 4, 26, 16]) {
            1 if last.is_some() => last.map(|call| call.reference),
            0 | 1 => self.script.pick_call().map(|call| call.reference),
            2 if !self.lately.is_empty() => Some(self.script.rng.pick(&self.lately)),
            _ => None,
        };
        reference.unwrap_or_else(|| self.script.absent_reference())
    }

    /// At times one that differs in the top bit alone, or in another.
    fn other_than(&mut self, first: Reference) -> Reference {
        loop {
            let second = match self.script.rng.below(100) {
                0..12 => Reference(first.0 ^ 0x8000),
                12..15 => Reference(first.0 ^ (1 << self.script.rng.below(15))),
                _ => self.some_reference(),
            };
            if second != first && second.valid() {
                return second;
            }
        }
    }

    /// Mostly one that is permitted, if any is.
    pub fn event_on(&mut self, reference: Reference) -> [u8; 4] {
        let (call, events) = (self.script.call(reference), events(reference));
        let good = |record: &[u8; 4]| call.is_some_and(|call| permitted(&call, record));
        let fitting: Vec<[u8; 4]> = events.into_iter().filter(good).collect();
        if fitting.is_empty() || self.percent(35) {
            self.script.rng.pick(&events)
        } else {
            self.script.rng.pick(&fitting)
        }
    }
}
