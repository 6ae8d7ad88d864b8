//! Two events that are exchanged, by the rows that they find: calls that have gone, and rows beside each other.

use crate::board::{Row, Standing, ROWS};
use crate::couple::{taken, Couple};
use crate::order_past::End;
use crate::seen_couple::CoupleSeen::{self, *};

/// Why a reference that gets 9 has no call.
pub fn absent(couple: &Couple) -> Vec<CoupleSeen> {
    const ENDS: [[CoupleSeen; 3]; 2] =
        [[ReleasedFirst, JoinedFirst, NeverFirst], [ReleasedSecond, JoinedSecond, NeverSecond]];
    let mut seen = Vec::new();
    for (second, &reference) in couple.references.iter().enumerate() {
        if couple.returned()[second] != 9 {
            continue;
        }
        let [released, joined, never] = ENDS[second];
        match couple.past.end(reference) {
            Some(End::Released) => seen.push(released),
            Some(End::Joined(other)) => {
                seen.push(joined);
                seen.extend((second == 0 && other == couple.references[1]).then_some(JoinedBoth));
            }
            None => seen.extend((!couple.past.ever(reference)).then_some(never)),
        }
        let number = |(_, row): (usize, &Row)| row.leg == reference.0 as u32;
        seen.extend(taken(couple.before()).any(number).then_some(LegNumber));
    }
    seen
}

/// The two rows of events that are both accepted.
pub fn accepted(couple: &Couple, first: (usize, &Row), second: (usize, &Row)) -> Vec<CoupleSeen> {
    let ((place, row), (other, beside)) = (first, second);
    let board = couple.before();
    let legs = taken(board).count();
    let (low, high) = (place.min(other), place.max(other));
    let linked = couple.calls().map(|call| call.is_some_and(|call| call.link.is_some()));
    let mut seen = vec![
        if couple.references[0].0 < couple.references[1].0 { LowerReference } else { HigherReference },
        if row.leg < beside.leg { LowerLeg } else { HigherLeg },
        if place < other { LowerRow } else { HigherRow },
        match linked {
            [true, true] => LinkBoth,
            [true, false] => LinkFirst,
            [false, true] => LinkSecond,
            [false, false] => LinkNeither,
        },
    ];
    let joined = |test: fn(bool) -> bool| move |(_, row): (usize, &Row)| matches!(row.standing, Standing::Joined { alerts, .. } if test(alerts));
    let met = [
        (NextRows, high - low == 1),
        (RowsBetween, taken(board).any(|(between, _)| low < between && between < high)),
        (LowestRow, place == 0),
        (LastFirst, place == ROWS - 1),
        (LastSecond, other == ROWS - 1),
        (TwoAlone, legs == 2),
        (Others, taken(board).filter(|(_, row)| row.call().is_some()).count() > 2),
        (Joined, taken(board).any(joined(|_| true))),
        (Alerting, taken(board).any(joined(|alerts| alerts))),
        (Full, legs == ROWS),
    ];
    seen.extend(met.into_iter().filter(|(_, met)| *met).map(|(seen, _)| seen));
    seen
}
