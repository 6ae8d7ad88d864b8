//! What occurs of Informs alone.

use crate::board::{Aux, Board, CallState, Reference, Row, Standing, INCOMING, ROWS};
use crate::inform::{self, EctInform, Indication};
use crate::notice::{call_of, Moment, Past};
use crate::notice_component::{others, row_of};
use crate::notice_inform_refused::{absent, not_active, refused};
use crate::notice_type;
use crate::reply::Told;
use crate::rules::RuleSet;
use crate::seen_inform::InformSeen;
use crate::tally::Tally;

pub use crate::notice_inform_refused::bad_reference;

/// Tallies an Inform by the call that it names.
pub fn judged(moment: &Moment, reference: Reference, component: &[u8], past: &mut Past, tally: &mut Tally) {
    let Some(row) = row_of(moment.before, |call| call.reference == reference) else {
        return absent(moment.before, reference, past, tally);
    };
    match (row.call(), inform::read(component)) {
        (Some(call), _) if call.state != CallState::Active => not_active(call, tally),
        (Some(call), None) => refused(moment, call, component, tally),
        (Some(_), Some(inform)) => {
            form(&inform, tally);
            beside_own(&inform, row, tally);
            notice_type::informed(moment.before.rules(), &inform, row, tally);
            call_told(moment.before, row, past, tally);
            remember(&inform, row, past);
        }
        (None, _) => {}
    }
}

/// Indication and number.
fn form(inform: &EctInform, tally: &mut Tally) {
    use InformSeen::{Active1, Active14, Active15, Active2, ActiveBetween, ActiveNone, ActiveRestricted};
    use InformSeen::{Alerting1, Alerting14, Alerting15, Alerting2, AlertingBetween};
    use InformSeen::{AlertingNone, AlertingRestricted};
    let (none, restricted, digits) = match inform.indication {
        Indication::Alerting => (
            AlertingNone,
            AlertingRestricted,
            [Alerting1, Alerting2, AlertingBetween, Alerting14, Alerting15],
        ),
        Indication::Active => {
            (ActiveNone, ActiveRestricted, [Active1, Active2, ActiveBetween, Active14, Active15])
        }
    };
    tally.add(match inform.number {
        Told::Unknown => none,
        Told::Withheld => restricted,
        Told::Given(_, number) => {
            digits[match number.count() {
                1 => 0,
                2 => 1,
                14 => 3,
                15 => 4,
                _ => 2,
            }]
        }
    });
}

/// How the number told stands to the row's own, which is not told.
fn beside_own(inform: &EctInform, row: &Row, tally: &mut Tally) {
    use InformSeen::{AlertingOwnGiven, AlertingOwnUnknown, AlertingOwnWithheld};
    use InformSeen::{GivenOwnGiven, GivenOwnUnknown, GivenOwnWithheld};
    use InformSeen::{NoneOwnGiven, NoneOwnUnknown, NoneOwnWithheld};
    use InformSeen::{WithheldOwnGiven, WithheldOwnUnknown, WithheldOwnWithheld};
    let by_own = match (inform.indication, inform.number) {
        (Indication::Alerting, _) => [AlertingOwnUnknown, AlertingOwnGiven, AlertingOwnWithheld],
        (_, Told::Unknown) => [NoneOwnUnknown, NoneOwnGiven, NoneOwnWithheld],
        (_, Told::Withheld) => [WithheldOwnUnknown, WithheldOwnGiven, WithheldOwnWithheld],
        (_, Told::Given(..)) => [GivenOwnUnknown, GivenOwnGiven, GivenOwnWithheld],
    };
    tally.add(by_own[Told::of(row).mark() as usize]);
    let (Indication::Active, Told::Given(_, number)) = (inform.indication, inform.number) else { return };
    let restricted = row.presentation == 1;
    let (own, told) = (row.number.count(), number.count());
    tally.add(match own {
        0 if restricted => InformSeen::GivenRestrictedNone,
        0 => return,
        _ if own < told => InformSeen::OwnFewer,
        _ if own > told => InformSeen::OwnMore,
        _ if row.number != number => InformSeen::OwnAsMany,
        _ if restricted => InformSeen::OwnSameRestricted,
        _ => InformSeen::OwnSame,
    });
}

/// The call, and what else is on the board.
fn call_told(board: &Board, row: &Row, past: &Past, tally: &mut Tally) {
    let Some(call) = row.call() else { return };
    tally.add(match call.aux {
        Aux::Idle => InformSeen::Idle,
        Aux::HoldRequest => InformSeen::HoldRequest,
        Aux::Held => InformSeen::Held,
        Aux::RetrieveRequest => InformSeen::RetrieveRequest,
    });
    let incoming = call.direction == INCOMING;
    tally.add(if incoming { InformSeen::Incoming } else { InformSeen::Outgoing });
    tally.add_if(call.link.is_some(), InformSeen::Linked);
    let subscribed = [InformSeen::Unsubscribed, InformSeen::Subscribed, InformSeen::ExplicitOnly];
    tally.add(subscribed[board.subscribed as usize]);
    let american = board.rules() == RuleSet::American;
    tally.add_if(american && board.subscribed == 0, InformSeen::AmericanUnsubscribed);
    let twin = Reference(call.reference.0 ^ 0x8000);
    tally.add_if(call_of(board, twin).is_some(), InformSeen::Twin);
    let active = |row: &Row| row.call().is_some_and(|call| call.state == CallState::Active);
    tally.add_if(others(board, call).any(active), InformSeen::OtherActive);
    let joined = |row: &Row| matches!(row.standing, Standing::Joined { .. });
    tally.add_if(board.rows.iter().any(joined), InformSeen::PairThere);
    tally.add_if(board.rows[ROWS - 1].call() == Some(call), InformSeen::LastRow);
    tally.add_if(past.informed.contains(&row.leg), InformSeen::Again);
}

fn remember(inform: &EctInform, row: &Row, past: &mut Past) {
    past.informed.insert(row.leg);
    if inform.number != Told::Unknown && inform.number != Told::of(row) {
        past.other_number.insert(row.leg);
    }
}

/// A Hold still finds the call as it was.
pub fn held(board: &Board, reference: Reference, past: &Past, tally: &mut Tally) {
    let row = row_of(board, |call| call.reference == reference);
    let after = row.is_some_and(|row| past.other_number.contains(&row.leg));
    tally.add_if(after, InformSeen::HoldAfter);
}

/// A transfer still tells the party's own number: here a program would show that it had kept the
/// one received.
pub fn own_number_told(row: &Row, past: &Past, tally: &mut Tally) {
    let marks = [InformSeen::TransferUnknown, InformSeen::TransferGiven, InformSeen::TransferWithheld];
    let after = past.other_number.contains(&row.leg);
    tally.add_if(after, marks[Told::of(row).mark() as usize]);
    notice_type::own_number_told(row, after, tally);
}

/// What is known of a party, and of its partner, ends with a Release.
pub fn released(row: &Row, past: &mut Past, tally: &mut Tally) {
    let mut forget = |leg: u32| {
        past.informed.remove(&leg);
        past.other_number.remove(&leg)
    };
    match row.standing {
        Standing::Served(call) => {
            tally.add_if(forget(row.leg), InformSeen::ReleaseAfter);
            past.ended.insert(call.reference);
        }
        Standing::Joined { partner, .. } => {
            forget(row.leg);
            forget(partner);
        }
        Standing::Empty => {}
    }
}
