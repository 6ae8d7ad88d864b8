//! What occurs where parties are joined, answer or go, by which of them are shown.

use crate::attendant::{Screen, Way};
use crate::board::{Board, Standing};
use crate::screened::{row_of, Moment};
use crate::seen_screen::{AnswerLinesSeen, ReleaseLinesSeen, Taken, TransferLinesSeen};
use crate::tally::Tally;

/// The partner of a leg, and whether the leg itself alerts; none where it is not joined.
fn joined(board: &Board, leg: u32) -> Option<(u32, bool)> {
    match row_of(board, leg)?.1.standing {
        Standing::Joined { partner, alerts } => Some((partner, alerts)),
        _ => None,
    }
}

/// Neither alerts, the first does, or the second.
fn alerting(board: &Board, first: u32, second: u32) -> usize {
    let alerts = |leg| joined(board, leg).is_some_and(|(_, alerts)| alerts);
    match (alerts(first), alerts(second)) {
        (true, _) => 1,
        (_, true) => 2,
        _ => 0,
    }
}

/// Both are shown, the first alone, the second alone, or neither.
fn shown(screen: &Screen, first: u32, second: u32) -> usize {
    2 * usize::from(screen.line_of(first).is_none()) + usize::from(screen.line_of(second).is_none())
}

/// Whether a Facility on the call of this leg has made a transfer.
pub fn transfer(leg: u32, moment: &Moment, tally: &mut Tally) -> bool {
    use TransferLinesSeen::*;
    const SEEN: [[TransferLinesSeen; 3]; 4] = [
        [Both, BothNamedAlerts, BothOtherAlerts],
        [Named, NamedAlerts, NamedOtherAlerts],
        [Other, OtherNamedAlerts, OtherAlerts],
        [Neither, NeitherNamedAlerts, NeitherOtherAlerts],
    ];
    let Some((other, _)) = joined(moment.after, leg) else { return false };
    let (rules, screen) = (moment.after.rules(), moment.is);
    tally.add((rules, SEEN[shown(screen, leg, other)][alerting(moment.after, leg, other)]));
    if let (Some(named), Some(other)) = (screen.line_of(leg), screen.line_of(other)) {
        tally.add((rules, if named < other { NamedLower } else { NamedHigher }));
        tally.add_if(screen.0.iter().flatten().count() > 2, (rules, Third));
        tally.add_if(Taken::of(screen) == Taken::All, (rules, Full));
    }
    true
}

pub fn answer(leg: u32, moment: &Moment, tally: &mut Tally) {
    use AnswerLinesSeen::*;
    let Some((partner, _)) = joined(moment.before, leg) else { return };
    let (rules, which) = (moment.after.rules(), shown(moment.is, leg, partner));
    tally.add((rules, [Both, Answering, Partner, Neither][which]));
    let third = moment.is.0.iter().flatten().any(|shown| shown.way == Way::Alerting);
    tally.add_if(which == 0 && third, (rules, Third));
}

pub fn release(leg: u32, moment: &Moment, tally: &mut Tally) {
    use ReleaseLinesSeen::*;
    const SEEN: [[ReleaseLinesSeen; 3]; 4] = [
        [Both, BothOwn, BothPartner],
        [Own, OwnOwn, OwnPartner],
        [Partner, PartnerOwn, PartnerPartner],
        [Neither, NeitherOwn, NeitherPartner],
    ];
    match joined(moment.before, leg) {
        Some((partner, _)) => {
            let alerts = alerting(moment.before, leg, partner);
            tally.add(SEEN[shown(moment.was, leg, partner)][alerts]);
        }
        None => {
            let on_line = moment.was.line_of(leg).is_some();
            tally.add_if(on_line, User);
            tally.add_if(!on_line && Taken::of(moment.was) != Taken::No, UserNot);
        }
    }
}
