//! Players whose Progress or Hold is wrong in one point.

use engine::board::{Board, Call, Standing};
use engine::each_order;
use engine::either_order::{Orders, Player};
use engine::event::{event, Answer, HOLD, PROGRESS};
use engine::exchange::Exchange;
use engine::order_logs;
use engine::rng::Rng;

pub type Step = fn(&mut Wrong, &mut Board, &[u8], &mut [u8]) -> Answer;

/// What it is wrong in, and what some keep of the event before.
#[derive(Clone)]
pub struct Wrong {
    pub last: Vec<u8>,
    pub returned: u8,
    pub step: Step,
}

impl Player for Wrong {
    fn event(&mut self, board: &mut Board, record: &[u8], buffer: &mut [u8]) -> Answer {
        let answer = match record {
            [PROGRESS | HOLD, _, _, _] => (self.step)(self, board, record, buffer),
            _ => event(board, record, buffer),
        };
        (self.last, self.returned) = (record.to_vec(), answer.returned);
        answer
    }
}

/// By what a wrong player is found: by the other order, or by the rows alone, since it comes to the same in either.
#[derive(Clone, Copy, PartialEq, Eq, Debug)]
pub enum By {
    Order,
    Rows,
}

pub fn exchanges() -> Vec<Exchange> {
    let mut rng = Rng::new(131);
    let mut exchanges: Vec<Exchange> = each_order::unrelated().into_iter().step_by(5).collect();
    exchanges.extend((0..150).map(|_| order_logs::exchange(&mut rng)));
    exchanges
}

pub fn told_apart<const N: usize>(wrongs: [(&str, By, Step); N]) {
    let exchanges = exchanges();
    for (what, by, step) in wrongs {
        let wrong = Wrong { last: Vec::new(), returned: 0, step };
        let orders = |exchange: &Exchange| Orders::of(exchange, wrong.clone());
        let order = exchanges.iter().any(|exchange| orders(exchange).same(exchange).is_err());
        let rows = exchanges.iter().any(|exchange| orders(exchange).by_rows(exchange).is_err());
        assert_eq!((order, rows), (by == By::Order, true), "{what}");
    }
}

pub fn refused(returned: u8) -> Answer {
    Answer { returned, written: 0 }
}

pub fn named(record: &[u8]) -> u16 {
    u16::from_be_bytes([record[1], record[2]])
}

pub fn calls(board: &mut Board) -> impl Iterator<Item = &mut Call> {
    board.rows.iter_mut().filter_map(|row| match &mut row.standing {
        Standing::Served(call) => Some(call),
        _ => None,
    })
}

/// The right step, and what is done besides where it is accepted.
pub fn besides(board: &mut Board, record: &[u8], buffer: &mut [u8], done: impl FnOnce(&mut Board)) -> Answer {
    let answer = event(board, record, buffer);
    if answer.returned == 0 {
        done(board);
    }
    answer
}

/// The event on the first call whose reference, masked so, is that of the record.
pub fn found_by(board: &mut Board, record: &[u8], buffer: &mut [u8], mask: u16) -> Answer {
    let found = calls(board).map(|call| call.reference.0).find(|own| (own ^ named(record)) & mask == 0);
    let [high, low] = found.unwrap_or(named(record)).to_be_bytes();
    event(board, &[record[0], high, low, record[3]], buffer)
}

pub fn place(board: &Board, record: &[u8]) -> usize {
    let own = |call: &Call| call.reference.0 == named(record);
    board.rows.iter().position(|row| row.call().is_some_and(own)).unwrap_or(0)
}
