//! A log played in either order of the records that are exchanged: what each event comes to, and the whole board.

use crate::board::Board;
use crate::event::{event, Answer};
use crate::exchange::Exchange;
use crate::order_texts::{self, Otherwise};
use crate::play::{play_by, start};
use crate::stepped;

/// What plays the events of a log. The right one is the engine's step; the tests have wrong ones.
pub trait Player: Clone {
    fn event(&mut self, board: &mut Board, record: &[u8], buffer: &mut [u8]) -> Answer;
}

#[derive(Clone)]
pub struct Right;

impl Player for Right {
    fn event(&mut self, board: &mut Board, record: &[u8], buffer: &mut [u8]) -> Answer {
        event(board, record, buffer)
    }
}

/// What a record came to.
pub struct Step {
    pub returned: u8,
    pub written: Vec<u8>,
    pub after: Board,
}

/// A whole log, whose options are good.
pub struct Played {
    fresh: Board,
    pub steps: Vec<Step>,
    pub text: Vec<u8>,
}

impl Played {
    pub fn of(log: &[u8], mut player: impl Player) -> Played {
        let fresh = start(log).map_or(Board::empty(0, 0), |(board, _)| board);
        let (mut steps, mut text) = (Vec::new(), Vec::new());
        play_by(log, &mut text, |board, record, buffer| {
            let answer = player.event(board, record, buffer);
            let written = buffer[..answer.written].to_vec();
            steps.push(Step { returned: answer.returned, written, after: board.clone() });
            answer
        });
        Played { fresh, steps, text }
    }

    pub fn before(&self, place: usize) -> &Board {
        place.checked_sub(1).map_or(&self.fresh, |place| &self.steps[place].after)
    }

    /// Whether a Progress or a Hold at a place came to what it has to.
    fn by_rows(&self, record: &[u8], place: usize) -> bool {
        let Step { returned, written, after } = &self.steps[place];
        stepped::stands(self.before(place), record, (*returned, written, after))
    }
}

/// Both logs.
pub struct Orders {
    pub first: Played,
    pub second: Played,
}

impl Orders {
    pub fn of(exchange: &Exchange, player: impl Player) -> Orders {
        let first = Played::of(&exchange.log, player.clone());
        Orders { first, second: Played::of(&exchange.other(), player) }
    }

    /// Line by line the same, and, but between two that are exchanged, the same board.
    pub fn same(&self, exchange: &Exchange) -> Result<(), Otherwise> {
        order_texts::same(&self.first.text, &self.second.text, &exchange.places)?;
        let boards = self.first.steps.iter().zip(&self.second.steps).enumerate();
        let mut differ = boards.filter(|(_, (one, other))| one.after != other.after);
        let differs = differ.find(|(place, _)| !exchange.places.contains(place));
        differs.map_or(Ok(()), |(place, _)| Err(Otherwise::Board(place)))
    }

    /// Each of the events that are exchanged comes to what the rows say, in either order.
    pub fn by_rows(&self, exchange: &Exchange) -> Result<(), String> {
        let records = exchange.records();
        for &place in &exchange.places {
            let (first, second) = (records[place], records[place + 1]);
            let right = self.first.by_rows(first, place)
                && self.first.by_rows(second, place + 1)
                && self.second.by_rows(second, place)
                && self.second.by_rows(first, place + 1);
            if !right {
                return Err(format!("record {} or the next does not come to what the rows say", place + 1));
            }
        }
        Ok(())
    }
}
