//! The situation of a call as a number, and the verdict on two calls as a table,
//! one for each rule set.

use crate::board::{Call, CallState, OUTGOING};
use crate::rules::RuleSet;

/// So many situations there are.
pub const SITUATIONS: usize = 32;

/// One situation, another, and the verdict on them, where it is not 0. The numbers are those
/// of `situation`: 8 Delivered Idle and 12 Delivered Held, both outgoing; 24 and 25 Active
/// Idle, 28 and 29 Active Held, outgoing and incoming.
type NotZero = (usize, usize, u8);

/// By both rule sets: one call held.
const ONE_HELD: [NotZero; 16] = [
    (8, 28, 2),
    (8, 29, 2),
    (12, 24, 2),
    (12, 25, 2),
    (24, 12, 2),
    (24, 28, 1),
    (24, 29, 1),
    (25, 12, 2),
    (25, 28, 1),
    (25, 29, 1),
    (28, 8, 2),
    (28, 24, 1),
    (28, 25, 1),
    (29, 8, 2),
    (29, 24, 1),
    (29, 25, 1),
];

/// By American rules these too: neither call held.
const NEITHER_HELD: [NotZero; 8] =
    [(8, 24, 2), (8, 25, 2), (24, 8, 2), (24, 24, 1), (24, 25, 1), (25, 8, 2), (25, 24, 1), (25, 25, 1)];

/// The verdict on two calls, at 32 times the situation of the one plus that of the other.
pub type Table = [u8; SITUATIONS * SITUATIONS];

static EUROPEAN: Table = with([0; SITUATIONS * SITUATIONS], &ONE_HELD);
static AMERICAN: Table = with(with([0; SITUATIONS * SITUATIONS], &ONE_HELD), &NEITHER_HELD);

const fn with(mut table: Table, not_zero: &[NotZero]) -> Table {
    let mut place = 0;
    while place < not_zero.len() {
        let (one, other, verdict) = not_zero[place];
        table[SITUATIONS * one + other] = verdict;
        place += 1;
    }
    table
}

/// The table of a rule set.
pub fn table(rules: RuleSet) -> &'static Table {
    match rules {
        RuleSet::European => &EUROPEAN,
        RuleSet::American => &AMERICAN,
    }
}

/// 8 times the place of the call state, plus twice the auxiliary state, plus the direction.
/// A direction that no sound board has counts as incoming: it is not outgoing either.
pub fn situation(call: &Call) -> usize {
    let place = match call.state {
        CallState::Proceeding => 0,
        CallState::Delivered => 1,
        CallState::Received => 2,
        CallState::Active => 3,
    };
    8 * place + 2 * call.aux as usize + (call.direction != OUTGOING) as usize
}

/// The verdict on two calls as the table has it.
pub fn entry(rules: RuleSet, one: &Call, other: &Call) -> u8 {
    table(rules)[SITUATIONS * situation(one) + situation(other)]
}
