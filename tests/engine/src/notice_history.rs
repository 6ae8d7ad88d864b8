//! Logs that are a short history, or one with an event behind it that is refused. This is judged by playing
//! them: a history that the list lacks counts too.

use crate::event::event;
use crate::histories::{self, LONGEST, OPTIONS};
use crate::moving::records;
use crate::play::start;
use crate::reply::BUFFER;
use crate::seen_history::HistorySeen;
use crate::tally::Tally;

pub fn notice(log: &[u8], tally: &mut Tally) {
    tally.add_each(played(log).and_then(|(length, returned)| seen(length, returned)));
}

/// How many events of the log are not refused, and what the last one is refused with, or 0. None where it
/// has other records or too many, or goes on behind a refusal.
fn played(log: &[u8]) -> Option<(usize, u8)> {
    let (mut board, rest) = start(log).filter(|_| log.starts_with(&OPTIONS))?;
    let six = histories::records();
    let (mut length, mut returned) = (0, 0);
    for record in records(rest) {
        if returned != 0 || length == LONGEST || six.iter().all(|known| known != record) {
            return None;
        }
        returned = event(&mut board, record, &mut [0; BUFFER]).returned;
        length += (returned == 0) as usize;
    }
    Some((length, returned))
}

fn seen(length: usize, returned: u8) -> Option<HistorySeen> {
    use HistorySeen::*;
    Some(match (length, returned) {
        (0, 0) => Of0,
        (1, 0) => Of1,
        (2, 0) => Of2,
        (3, 0) => Of3,
        (4, 0) => Of4,
        (0, 9) => Of0Then9,
        (0, 10) => Of0Then10,
        (1, 6) => Of1Then6,
        (1, 9) => Of1Then9,
        (1, 10) => Of1Then10,
        (2, 6) => Of2Then6,
        (2, 9) => Of2Then9,
        (2, 10) => Of2Then10,
        (2, 11) => Of2Then11,
        (3, 6) => Of3Then6,
        (3, 9) => Of3Then9,
        (3, 10) => Of3Then10,
        (3, 11) => Of3Then11,
        _ => return None,
    })
}
