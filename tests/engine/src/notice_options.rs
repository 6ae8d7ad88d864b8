//! What occurs at the front of a log: its two option octets.

use crate::board::Board;
use crate::seen_options::by_options;
use crate::tally::{Seen, Tally};

/// The options of a log that is played.
pub fn good(board: &Board) -> Seen {
    by_options!(Seen)[board.subscribed as usize][board.alerting as usize]
}

/// What no board for an old log is made with.
pub fn bad(log: &[u8], tally: &mut Tally) {
    tally.add_if(matches!(log, [2, 5..=255, ..]), Seen::OptionsBad2);
    tally.add(match log {
        [] => Seen::OptionsMissing,
        [_] => Seen::OptionMissing,
        [0, 4, ..] => Seen::OptionsBad04,
        [1, 4, ..] => Seen::OptionsBad14,
        [2, 4, ..] => Seen::OptionsBad24,
        [0..=2, 5, ..] => Seen::OptionSecond5,
        [0..=2, 0xFF, ..] => Seen::OptionSecondFF,
        [0..=2, ..] => Seen::OptionSecondElse,
        [_, 4..=255, ..] => Seen::OptionsBothBad,
        [3, ..] => Seen::OptionFirst3,
        [0xFF, ..] => Seen::OptionFirstFF,
        _ => Seen::OptionFirstElse,
    });
}
