//! What occurs where two calls are transferred.

use crate::board::{Aux, Board, Call, CallState, Row};
use crate::notice::Past;
use crate::notice_american;
use crate::notice_component::row_of;
use crate::notice_inform;
use crate::notice_type;
use crate::reply::Told;
use crate::rules::RuleSet;
use crate::seen_rules::{RuleSeen, TransferSeen};
use crate::tally::{Seen, Tally};

/// How a transfer was asked for. By American rules there is one way alone.
#[derive(Clone, Copy, PartialEq, Eq, Debug)]
pub enum Asked {
    Execute,
    Explicit,
    American,
}

impl Asked {
    pub fn by_link(rules: RuleSet) -> Asked {
        match rules {
            RuleSet::European => Asked::Explicit,
            RuleSet::American => Asked::American,
        }
    }

    fn rules(self) -> RuleSet {
        match self {
            Asked::Execute | Asked::Explicit => RuleSet::European,
            Asked::American => RuleSet::American,
        }
    }
}

pub fn transferred(
    board: &Board,
    named: &Row,
    other: &Row,
    asked: Asked,
    past: &mut Past,
    tally: &mut Tally,
) {
    let (Some(a), Some(b)) = (named.call(), other.call()) else { return };
    past.references.extend([a.reference, b.reference]);
    past.links.extend(a.link.iter().chain(&b.link));
    past.named.insert(named.leg);
    past.named.remove(&other.leg);
    let rules = asked.rules();
    tally.add_if(a.link.is_some(), (rules, RuleSeen::TransferLinkNamed));
    tally.add_if(b.link.is_some(), (rules, RuleSeen::TransferLinkOther));
    placed(board, (named, a), (other, b), asked, tally);
    told((named, a), (other, b), asked, past, tally);
    if rules == RuleSet::American {
        notice_american::transferred(board, (named, a), (other, b), tally);
    }
}

/// Whether the row of the call stands behind that of the other.
pub fn higher(board: &Board, call: &Call, other: &Call) -> bool {
    let lower = row_of(board, |found| [call.reference, other.reference].contains(&found.reference));
    lower.and_then(Row::call).is_some_and(|lower| lower.reference != call.reference)
}

/// How the named call stands to the other, by what the Drops could be ordered by too.
fn placed(board: &Board, named: (&Row, &Call), other: (&Row, &Call), asked: Asked, tally: &mut Tally) {
    use TransferSeen::*;
    let ((row, a), (second, b)) = (named, other);
    let of = |test: bool, seen: [TransferSeen; 2]| (asked, seen[test as usize]);
    tally.add(of(a.reference.0 > b.reference.0, [LowerReference, HigherReference]));
    tally.add(of(higher(board, a, b), [LowerRow, HigherRow]));
    tally.add(of(row.leg > second.leg, [LowerLeg, HigherLeg]));
    tally.add_if(a.aux == Aux::Held, (asked, NamedHeld));
    tally.add_if(b.aux == Aux::Held, (asked, OtherHeld));
}

/// Which of the two alerts, and what the parties are told.
fn told(named: (&Row, &Call), other: (&Row, &Call), asked: Asked, past: &Past, tally: &mut Tally) {
    let ((row, a), (second, b)) = (named, other);
    match (a.state, b.state) {
        (CallState::Delivered, _) => {
            tally.add((asked, TransferSeen::NamedAlerts));
            told_alerting(named, second, asked, past, tally);
        }
        (_, CallState::Delivered) => {
            tally.add((asked, TransferSeen::OtherAlerts));
            told_alerting(other, row, asked, past, tally);
        }
        _ => {
            tally.add((asked, TransferSeen::Active));
            notice_type::both_active(row, second, asked, tally);
            let marks = [RuleSeen::TellUnknown, RuleSeen::TellGiven, RuleSeen::TellWithheld];
            for row in [row, second] {
                tally.add((asked.rules(), marks[Told::of(row).mark() as usize]));
                notice_inform::own_number_told(row, past, tally);
            }
        }
    }
}

/// The Active party is not sent the number of the one that alerts. By European rules that one is
/// sent the Active party's; by American it is told nothing.
fn told_alerting(alerting: (&Row, &Call), active: &Row, asked: Asked, past: &Past, tally: &mut Tally) {
    let ((row, call), rules) = (alerting, asked.rules());
    notice_type::one_alerting(row, active, asked, tally);
    let held = call.aux == Aux::Held;
    tally.add((rules, if held { RuleSeen::TransferAlertingHeld } else { RuleSeen::TransferAlertingIdle }));
    let marks = [RuleSeen::UnsentUnknown, RuleSeen::UnsentGiven, RuleSeen::UnsentWithheld];
    tally.add((rules, marks[Told::of(row).mark() as usize]));
    if rules == RuleSet::European {
        let marks = [Seen::NotifyUnknown, Seen::NotifyGiven, Seen::NotifyWithheld];
        tally.add(marks[Told::of(active).mark() as usize]);
        notice_inform::own_number_told(active, past, tally);
    }
}
