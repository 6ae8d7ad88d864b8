//! Short histories: the sequences of at most four of six records in which no event is refused.

use crate::board::{Board, Reference, INCOMING, OUTGOING};
use crate::event::event;
use crate::opening::old_log;
use crate::records::{open, progress, release};
use crate::reply::BUFFER;

/// At or past the list's length.
pub const PAST_THE_LIST: u8 = 15;
pub const LONGEST: usize = 4;
/// Of the fresh board that they are played from.
pub const OPTIONS: [u8; 2] = [1, 1];

/// The six, in the order of their numbers.
pub fn records() -> [Vec<u8>; 6] {
    [
        open(Reference(1), 1, OUTGOING, 0, b"21"),
        open(Reference(2), 2, INCOMING, 0, b"21"),
        progress(Reference(1), 10),
        progress(Reference(2), 10),
        release(1),
        release(2),
    ]
}

/// So many numbers, and zeros behind them.
#[derive(Clone, Copy, PartialEq, Eq, Debug)]
pub struct History {
    pub length: usize,
    pub places: [u8; LONGEST],
}

impl History {
    pub const EMPTY: History = History { length: 0, places: [0; LONGEST] };

    pub fn numbers(&self) -> &[u8] {
        &self.places[..self.length]
    }

    /// One longer; there has to be room.
    pub fn with(mut self, number: u8) -> History {
        self.places[self.length] = number;
        self.length += 1;
        self
    }
}

/// What a caller gets for a place in the list, counted from 0.
pub fn history(place: usize) -> (u8, History) {
    list().get(place).map_or((PAST_THE_LIST, History::EMPTY), |history| (0, *history))
}

/// All of them in their order: those of one length, each with all six numbers tried behind it, give the next.
pub fn list() -> Vec<History> {
    let records = records();
    let (_, fresh) = old_log(OPTIONS[0], OPTIONS[1]);
    let mut reached = vec![(History::EMPTY, fresh)];
    let mut list = vec![History::EMPTY];
    for _ in 0..LONGEST {
        reached = reached.iter().flat_map(|reached| longer(reached, &records)).collect();
        list.extend(reached.iter().map(|(history, _)| *history));
    }
    list
}

/// A history and its board, one event later in each way that is not refused.
fn longer((history, board): &(History, Board), records: &[Vec<u8>; 6]) -> Vec<(History, Board)> {
    let played = |(number, record): (u8, &Vec<u8>)| {
        let mut after = board.clone();
        let answer = event(&mut after, record, &mut [0; BUFFER]);
        (answer.returned == 0).then_some((history.with(number), after))
    };
    (0..).zip(records).filter_map(played).collect()
}
