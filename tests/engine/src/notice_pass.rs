//! What occurs where a Leg facility is passed on.

use crate::board::{Board, Row, Standing};
use crate::component::take;
use crate::notice::{row_of_leg, Past};
use crate::notice_component::elements;
use crate::seen_leg::LegSeen;
use crate::tally::Tally;

pub fn alerts(row: Option<&Row>) -> bool {
    row.is_some_and(|row| matches!(row.standing, Standing::Joined { alerts: true, .. }))
}

pub fn joined(row: Option<&Row>) -> bool {
    row.is_some_and(|row| matches!(row.standing, Standing::Joined { .. }))
}

/// Which of the two sends to which.
pub fn between(board: &Board, row: &Row, partner: u32, past: &Past, tally: &mut Tally) {
    let other = row_of_leg(board, partner);
    tally.add(match (alerts(Some(row)), alerts(other)) {
        (true, _) => LegSeen::FromAlerting,
        (_, true) => LegSeen::ToAlerting,
        _ => LegSeen::NoneAlerting,
    });
    tally.add_if(past.answered.contains(&row.leg), LegSeen::FromAnswered);
    tally.add_if(past.answered.contains(&partner), LegSeen::ToAnswered);
    let first =
        board.rows.iter().find(|found| [row.leg, partner].contains(&found.leg) && joined(Some(found)));
    let lower = first.is_some_and(|first| first.leg == row.leg);
    tally.add(if lower { LegSeen::FromLowerRow } else { LegSeen::FromHigherRow });
    tally.add(if row.leg < partner { LegSeen::FromLowerLeg } else { LegSeen::FromHigherLeg });
    tally.add_if(row.leg == 0, LegSeen::FromLeg0);
    tally.add_if(board.rows.iter().filter(|row| joined(Some(row))).count() > 2, LegSeen::OtherPair);
    tally.add_if(past.passed.contains(&(partner, row.leg)), LegSeen::BothWays);
}

/// The argument's form, with the number of octets of the subaddress.
pub fn subaddress_form(component: &[u8], tally: &mut Tally) {
    use LegSeen::{Flagged1, Flagged19, Flagged2, Flagged20, FlaggedBetween};
    use LegSeen::{Inner1, Inner19, Inner2, Inner20, InnerBetween};
    use LegSeen::{Plain1, Plain19, Plain2, Plain20, PlainBetween};
    let list = elements(&component[2..]);
    let Some(argument) = list.get(2) else { return };
    let inner = if argument.tag == 0x30 { argument.contents } else { argument.whole };
    let Some((subaddress, flag)) = take(inner) else { return };
    let forms = match (argument.tag, flag) {
        (0x04, _) => [Plain1, Plain2, PlainBetween, Plain19, Plain20],
        (_, []) => [Inner1, Inner2, InnerBetween, Inner19, Inner20],
        _ => [Flagged1, Flagged2, FlaggedBetween, Flagged19, Flagged20],
    };
    tally.add(match subaddress.contents.len() {
        1 => forms[0],
        2 => forms[1],
        19 => forms[3],
        20 => forms[4],
        _ => forms[2],
    });
    if let [_, _, value] = flag {
        tally.add(match value {
            0x00 => LegSeen::Flag00,
            0xFF => LegSeen::FlagFF,
            _ => LegSeen::FlagOther,
        });
    }
}
