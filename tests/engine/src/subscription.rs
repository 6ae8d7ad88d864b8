//! What the option "subscribed" says: whether the service is served at all, and whether EctExecute
//! is, which names one call alone.

use crate::board::Board;
use crate::rules::RuleSet;

pub const REFUSED: u8 = 0;
pub const IMPLICIT: u8 = 1;
pub const EXPLICIT_ONLY: u8 = 2;
/// The highest value of the option.
pub const HIGHEST: u8 = EXPLICIT_ONLY;

/// Whether both calls must be named: by American rules whatever the option.
pub fn both_named(board: &Board) -> bool {
    board.subscribed == EXPLICIT_ONLY || board.rules() == RuleSet::American
}
