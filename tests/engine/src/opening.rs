//! The two openings: one makes a live board, the other a board for an old log.

use crate::board::Board;
use crate::rules;
use crate::subscription::{self, IMPLICIT};

/// What a live board with the implicit linkage gives: it is retired there.
pub const RETIRED: u8 = 14;
const BAD_OPTIONS: u8 = 5;

/// For an exchange. That the linkage is retired comes before the second octet is judged.
pub fn live(subscribed: u8, alerting: u8) -> (u8, Board) {
    if subscribed == IMPLICIT {
        return refused(RETIRED);
    }
    old_log(subscribed, alerting)
}

/// For whoever reads stored logs.
pub fn old_log(subscribed: u8, alerting: u8) -> (u8, Board) {
    if subscribed > subscription::HIGHEST || alerting > rules::HIGHEST {
        return refused(BAD_OPTIONS);
    }
    (0, Board::empty(subscribed, alerting))
}

fn refused(returned: u8) -> (u8, Board) {
    (returned, Board::empty(0, 0))
}
