//! Verdicts on which an answer hangs: at most one of the other calls pairs, so that another
//! verdict would make a transfer of an error, or an error of a transfer.

use crate::board::{Aux, Call, CallState};
use crate::pair_table::{entry, situation};
use crate::rules::{alerting_allowed, RuleSet};
use crate::seen_rules::AmericanSeen;
use crate::seen_verdict::{ApartSeen, IdleSeen, PairSeen};
use crate::tally::Tally;

/// Tallies the verdict on the named call and another by both their situations.
pub fn met(named: &Call, other: &Call, alerting: u8, tally: &mut Tally) {
    let rules = RuleSet::of(alerting);
    let places = (situation(named), situation(other));
    if let Some(seen) = held_and_idle(places) {
        tally.add((rules, seen));
    } else if let Some(seen) = both_idle(places) {
        tally.add((rules, seen));
    } else {
        apart(rules, named, other, tally);
    }
    if entry(rules, named, other) == 2 {
        let allowed = alerting_allowed(alerting);
        tally.add((rules, if allowed { PairSeen::Allowed } else { PairSeen::NotAllowed }));
    }
}

fn held_and_idle(places: (usize, usize)) -> Option<PairSeen> {
    Some(match places {
        (8, 28) => PairSeen::At8With28,
        (8, 29) => PairSeen::At8With29,
        (12, 24) => PairSeen::At12With24,
        (12, 25) => PairSeen::At12With25,
        (24, 12) => PairSeen::At24With12,
        (24, 28) => PairSeen::At24With28,
        (24, 29) => PairSeen::At24With29,
        (25, 12) => PairSeen::At25With12,
        (25, 28) => PairSeen::At25With28,
        (25, 29) => PairSeen::At25With29,
        (28, 8) => PairSeen::At28With8,
        (28, 24) => PairSeen::At28With24,
        (28, 25) => PairSeen::At28With25,
        (29, 8) => PairSeen::At29With8,
        (29, 24) => PairSeen::At29With24,
        (29, 25) => PairSeen::At29With25,
        _ => return None,
    })
}

fn both_idle(places: (usize, usize)) -> Option<IdleSeen> {
    Some(match places {
        (8, 24) => IdleSeen::At8With24,
        (8, 25) => IdleSeen::At8With25,
        (24, 8) => IdleSeen::At24With8,
        (24, 24) => IdleSeen::At24With24,
        (24, 25) => IdleSeen::At24With25,
        (25, 8) => IdleSeen::At25With8,
        (25, 24) => IdleSeen::At25With24,
        (25, 25) => IdleSeen::At25With25,
        _ => return None,
    })
}

/// Why two calls have verdict 0, where there is one reason alone: their auxiliary states, or
/// their call states.
fn apart(rules: RuleSet, named: &Call, other: &Call, tally: &mut Tally) {
    use Aux::{Held, Idle};
    use CallState::{Active, Delivered, Proceeding, Received};
    let (one, two) = if named.aux as u8 <= other.aux as u8 { (named, other) } else { (other, named) };
    let states = (one.state, two.state);
    match (one.aux, two.aux) {
        (Idle, Idle) if rules == RuleSet::American => match states {
            (Delivered, Delivered) => tally.add(AmericanSeen::IdleDelivered),
            (Proceeding, Active) | (Active, Proceeding) => tally.add(AmericanSeen::IdleProceeding),
            (Received, Active) | (Active, Received) => tally.add(AmericanSeen::IdleReceived),
            _ => {}
        },
        (Idle, Idle) => {}
        (Idle, Held) => match states {
            (Delivered, Delivered) => tally.add((rules, PairSeen::BothDelivered)),
            (Proceeding, Active) => tally.add((rules, PairSeen::Proceeding)),
            (Received, Active) => tally.add((rules, PairSeen::Received)),
            _ => {}
        },
        aux => match states {
            (Active, Active) => tally.add_each(apart_by(aux)[0].map(|seen| (rules, seen))),
            (Active, Delivered) | (Delivered, Active) => {
                tally.add_each(apart_by(aux)[1].map(|seen| (rules, seen)))
            }
            _ => {}
        },
    }
}

/// The auxiliary states that are not in order: with both calls Active, and with one Delivered.
fn apart_by(aux: (Aux, Aux)) -> [Option<ApartSeen>; 2] {
    use ApartSeen::*;
    use Aux::{Held, HoldRequest, Idle, RetrieveRequest};
    let both = match aux {
        (Idle, HoldRequest) => [HoldIdle, HoldIdleAlerting],
        (HoldRequest, HoldRequest) => [HoldHold, HoldHoldAlerting],
        (HoldRequest, Held) => [HoldHeld, HoldHeldAlerting],
        (HoldRequest, RetrieveRequest) => [HoldRetrieve, HoldRetrieveAlerting],
        (Held, Held) => [BothHeld, BothHeldAlerting],
        (Idle, RetrieveRequest) => [RetrieveIdle, RetrieveIdleAlerting],
        (Held, RetrieveRequest) => [RetrieveHeld, RetrieveHeldAlerting],
        (RetrieveRequest, RetrieveRequest) => [RetrieveBoth, RetrieveBothAlerting],
        _ => return [None, None],
    };
    both.map(Some)
}
