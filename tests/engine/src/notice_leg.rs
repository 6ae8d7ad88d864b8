//! What occurs of Leg facilities alone.

use crate::board::{Row, Standing};
use crate::notice::{row_of_leg, Moment, Past};
use crate::notice_leg_refused::{absent, refused, served};
use crate::notice_pass::{between, subaddress_form};
use crate::seen_leg::LegSeen;
use crate::tally::Tally;

/// Tallies a Leg facility by the row of its leg.
pub fn judged(moment: &Moment, leg: u32, component: &[u8], past: &mut Past, tally: &mut Tally) {
    match row_of_leg(moment.before, leg) {
        None => absent(leg, past, tally),
        Some(row) => match row.standing {
            Standing::Joined { partner, .. } if moment.returned == 0 => {
                past.passed.insert((leg, partner));
                between(moment.before, row, partner, past, tally);
                subaddress_form(component, tally);
            }
            Standing::Joined { partner, .. } => {
                past.refused.insert(leg);
                refused(moment, row, partner, component, tally);
            }
            _ => served(row, tally),
        },
    }
}

/// The leg's partner; none where the leg is not joined.
fn partner(row: &Row) -> Option<u32> {
    match row.standing {
        Standing::Joined { partner, .. } => Some(partner),
        _ => None,
    }
}

/// An Answer still finds the leg alerting, whatever went between the two.
pub fn answered(row: &Row, past: &mut Past, tally: &mut Tally) {
    let Some(partner) = partner(row) else { return };
    tally.add_if(past.passed.contains(&(row.leg, partner)), LegSeen::AnswerSender);
    tally.add_if(past.passed.contains(&(partner, row.leg)), LegSeen::AnswerReceiver);
    tally.add_if(past.refused.contains(&row.leg), LegSeen::AnswerRefused);
    past.answered.insert(row.leg);
}

/// Nor does it find a leg alerting that did not.
pub fn not_answered(row: &Row, past: &Past, tally: &mut Tally) {
    let sent = partner(row).is_some_and(|partner| past.passed.contains(&(row.leg, partner)));
    tally.add_if(sent, LegSeen::QuietSender);
}

/// A Release still finds the two joined; what is known of them ends with it.
pub fn released(row: &Row, past: &mut Past, tally: &mut Tally) {
    past.released.insert(row.leg);
    let Some(partner) = partner(row) else { return };
    past.went.insert(partner);
    let (sent, got) = (past.passed.remove(&(row.leg, partner)), past.passed.remove(&(partner, row.leg)));
    tally.add_if(sent, LegSeen::ReleaseSender);
    tally.add_if(got, LegSeen::ReleaseReceiver);
    for leg in [row.leg, partner] {
        past.answered.remove(&leg);
        past.refused.remove(&leg);
    }
}
