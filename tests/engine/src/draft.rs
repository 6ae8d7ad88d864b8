//! A script for the attendant's console under construction, with the board and the screen it leads to, so that
//! each next item can be steered by what they show.

use crate::attendant::{Console, Screen, Shown};
use crate::board::{Row, Standing};
use crate::items;
use crate::names;
use crate::records;
use crate::rng::Rng;
use crate::script::Script;

pub struct Draft<'a> {
    /// The items so far are its log, and its board is the one they lead to.
    pub script: Script<'a>,
    pub screen: Screen,
    /// Legs that a line has shown.
    pub shown: Vec<u32>,
    /// Where each item begins.
    pub starts: Vec<usize>,
}

impl<'a> Draft<'a> {
    pub fn new(rng: &'a mut Rng, subscribed: u8, alerting: u8) -> Draft<'a> {
        let script = Script::new(rng, subscribed, alerting);
        Draft { script, screen: Screen::EMPTY, shown: Vec::new(), starts: Vec::new() }
    }

    /// Adds an event and plays it.
    pub fn event(&mut self, record: &[u8]) {
        self.starts.push(self.script.log.len());
        if self.script.put(record) == 0 {
            self.screen.redraw(&self.script.board);
        }
    }

    /// Adds a pin; gives what it returned.
    pub fn pin(&mut self, leg: u32) -> u8 {
        self.starts.push(self.script.log.len());
        self.script.log.extend(items::pin(leg));
        let returned = self.screen.pin(&self.script.board, leg);
        if returned == 0 {
            self.shown.push(leg);
        }
        returned
    }

    pub fn name(&mut self) {
        self.starts.push(self.script.log.len());
        let (line, digits) = names::name(self.script.rng);
        self.script.log.extend(items::name(&line, &digits));
    }

    /// An Open of a leg with a reference that no call has.
    pub fn open(&mut self, leg: u32) {
        let reference = self.script.fresh_reference();
        let direction = self.script.rng.below(2) as u8;
        let digits = self.script.digits();
        let number_type = self.script.opens.number_type(self.script.rng);
        let record = records::open(reference, leg, direction, 0, &digits);
        self.event(&records::perhaps_typed(record, number_type));
    }

    pub fn percent(&mut self, chance: usize) -> bool {
        self.script.rng.percent(chance)
    }

    fn pick(&mut self, legs: Vec<u32>) -> Option<u32> {
        (!legs.is_empty()).then(|| self.script.rng.pick(&legs))
    }

    fn pick_row(&mut self, test: impl Fn(&Row) -> bool) -> Option<u32> {
        let rows = self.script.board.rows.iter();
        self.pick(
            rows.filter(|row| row.standing != Standing::Empty && test(row)).map(|row| row.leg).collect(),
        )
    }

    /// A leg that a line shows.
    pub fn pick_shown(&mut self) -> Option<u32> {
        self.pick(self.screen.0.iter().flatten().map(|shown| shown.leg).collect())
    }

    /// A leg on the board that no line shows; one that is joined where there is such.
    pub fn pick_unshown(&mut self) -> Option<u32> {
        let screen = self.screen;
        let unshown = |row: &Row| screen.line_of(row.leg).is_none();
        let joined = self.pick_row(|row| row.call().is_none() && unshown(row));
        joined.filter(|_| self.percent(60)).or_else(|| self.pick_row(unshown))
    }

    /// A leg that a line has shown and that has left the board.
    pub fn pick_gone(&mut self) -> Option<u32> {
        let board = &self.script.board;
        let gone = self.shown.iter().copied().filter(|&leg| Shown::on(board, leg).is_none());
        let gone = gone.collect();
        self.pick(gone)
    }
}
