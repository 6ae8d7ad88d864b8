//! What occurs where a component is read and served.

use crate::board::{Aux, Board, Call, CallState, LinkId, Reference, Row, MAX_LIVE};
use crate::carrier::Carrier;
use crate::component::{read, take, Element, Operation, Reading, MAX_DEPTH};
use crate::inform::{self, Indication};
use crate::notice::{call_of, Moment, Past};
use crate::notice_american;
use crate::notice_carrier;
use crate::notice_integer::integers;
use crate::notice_invoke::form;
use crate::notice_transfer::{transferred, Asked};
use crate::rules::{alerting_allowed, RuleSet};
use crate::seen_inform::InformSeen;
use crate::seen_leg::LegSeen;
use crate::seen_rules::RuleSeen;
use crate::serve::{pairs, verdict};
use crate::subscription::both_named;
use crate::tally::{Seen, Tally};

pub fn served(moment: &Moment, reference: Reference, component: &[u8], past: &mut Past, tally: &mut Tally) {
    tally.add_if(component.len() == 1, Seen::ComponentOne);
    tally.add_if(component.len() == 32, Seen::ComponentFull);
    let reading = read(component);
    integers(component, reading, moment.before.subscribed, tally);
    match reading {
        Reading::Nothing => tally.add(match component[0] {
            0xA2 => Seen::IgnoredA2,
            0xA3 => Seen::IgnoredA3,
            _ => Seen::IgnoredA4,
        }),
        Reading::Reject { identifier, sort, problem } => {
            tally.add_if(moment.before.subscribed == 0, Seen::RejectUnsubscribed);
            in_a_facility(moment, component, tally);
            rejected(component, identifier, sort, problem, tally);
        }
        Reading::Invoke { identifier, operation } => {
            if operation == Operation::Execute && both_named(moment.before) {
                return rejected_execute(moment.before, reference, component, tally);
            }
            forms(component, identifier, operation, tally);
            invoked(moment, reference, operation, past, tally);
        }
    }
}

/// An EctExecute where both calls must be named. By European rules it is tallied as it stands to that
/// with the other option (`notice_explicit`).
fn rejected_execute(board: &Board, reference: Reference, component: &[u8], tally: &mut Tally) {
    let Some(call) = call_of(board, reference) else { return };
    if board.rules() == RuleSet::American {
        notice_american::executed(board, call, component, tally);
    }
}

fn rejected(component: &[u8], identifier: &[u8], sort: u8, problem: u8, tally: &mut Tally) {
    let null = identifier == [5, 0];
    match (sort, problem) {
        (0x80, 0) => tally.add(Seen::General0),
        (0x80, 2) => tally.add(structure(component)),
        (0x80, _) if null => {
            tally.add(Seen::General1Null);
            tally.add_if(component.len() == 2, Seen::General1Empty);
        }
        (0x80, _) => tally.add(Seen::General1),
        (_, 1) => {
            let local = component[2 + identifier.len()] == 2;
            tally.add(if local { Seen::Invoke1Local } else { Seen::Invoke1Object });
        }
        _ => {
            tally.add(Seen::Invoke2);
            tally.add_if(component.len() == 2 + identifier.len() + 8, Seen::Invoke2Absent);
        }
    }
}

/// What a Leg facility or an Inform hands over is not served on a call.
fn in_a_facility(moment: &Moment, component: &[u8], tally: &mut Tally) {
    if notice_carrier::in_a_facility(moment, Carrier::LegFacility, component, tally) {
        let plain = elements(&component[2..])[2].tag == 0x04;
        tally.add(if plain { LegSeen::InFacilityPlain } else { LegSeen::InFacilitySequence });
    }
    if notice_carrier::in_a_facility(moment, Carrier::Inform, component, tally) {
        let active = inform::read(component).map(|inform| inform.indication) == Some(Indication::Active);
        tally.add(if active { InformSeen::InFacilityActive } else { InformSeen::InFacilityAlerting });
    }
}

/// Why a component has general problem 2.
fn structure(component: &[u8]) -> Seen {
    match component {
        [_] => Seen::LengthAbsent,
        [_, length, contents @ ..] if *length as usize == contents.len() => {
            fault(contents, 1).unwrap_or(Seen::LengthWrong)
        }
        _ => Seen::LengthWrong,
    }
}

/// What keeps octets at that depth from being whole elements.
pub fn fault(mut octets: &[u8], depth: u8) -> Option<Seen> {
    while let [tag, tail @ ..] = octets {
        if depth > MAX_DEPTH {
            return Some(Seen::DepthFive);
        }
        if tag & 0x1F == 0x1F {
            return Some(Seen::ElementTag);
        }
        if tail.first().is_some_and(|&length| length >= 128) {
            return Some(Seen::ElementLength);
        }
        let Some((element, rest)) = take(octets) else { return Some(Seen::ElementCut) };
        if tag & 0x20 != 0 {
            if let Some(seen) = fault(element.contents, depth + 1) {
                return Some(seen);
            }
        }
        octets = rest;
    }
    None
}

/// The deepest element, and whether a constructed one at depth 4 is empty.
fn depth(mut octets: &[u8], at: u8) -> (u8, bool) {
    let mut deepest = (at - 1, false);
    while let Some((element, rest)) = take(octets) {
        let inner = if element.tag & 0x20 != 0 { depth(element.contents, at + 1) } else { (at, false) };
        let empty = at == MAX_DEPTH && element.tag & 0x20 != 0;
        deepest = (deepest.0.max(inner.0), deepest.1 | inner.1 | empty);
        octets = rest;
    }
    deepest
}

/// The elements at the depth of these octets.
pub fn elements(mut octets: &[u8]) -> Vec<Element<'_>> {
    let mut list = Vec::new();
    while let Some((element, rest)) = take(octets) {
        list.push(element);
        octets = rest;
    }
    list
}

/// The elements behind the last one that is looked at for the operation.
pub fn further(component: &[u8], operation: Operation) -> Vec<Element<'_>> {
    let looked_at = if matches!(operation, Operation::Explicit(_)) { 3 } else { 2 };
    elements(&component[2..]).split_off(looked_at)
}

/// The forms in which a component that is served was written.
fn forms(component: &[u8], identifier: &[u8], operation: Operation, tally: &mut Tally) {
    tally.add_if(!further(component, operation).is_empty(), Seen::Further);
    let (deepest, empty) = depth(&component[2..], 1);
    tally.add_if(deepest == 4, Seen::DepthFour);
    tally.add_if(empty, Seen::DepthFourEmpty);
    tally.add_if(identifier.len() == 4, Seen::IdentifierTwo);
    tally.add_if(matches!(identifier, [_, _, 0x80..=0xFF]), Seen::IdentifierNegative);
}

fn invoked(moment: &Moment, reference: Reference, operation: Operation, past: &mut Past, tally: &mut Tally) {
    let board = moment.before;
    let Some(named) = row_of(board, |call| call.reference == reference) else { return };
    let Some(call) = named.call() else { return };
    if board.subscribed == 0 {
        return tally.add(match operation {
            Operation::Execute => Seen::UnsubscribedExecute,
            Operation::Explicit(_) => return tally.add((board.rules(), RuleSeen::UnsubscribedExplicit)),
            Operation::LinkRequest => return tally.add((board.rules(), RuleSeen::UnsubscribedLink)),
        });
    }
    match operation {
        Operation::LinkRequest => linked(moment, call, tally),
        Operation::Execute => executed(moment, named, call, past, tally),
        Operation::Explicit(link) => explicit(moment, named, call, link, past, tally),
    }
}

/// The row of a call that passes the test.
pub fn row_of(board: &Board, test: impl Fn(&Call) -> bool) -> Option<&Row> {
    board.rows.iter().find(|row| row.call().is_some_and(&test))
}

/// The rows of all calls but this one.
pub fn others<'a>(board: &'a Board, call: &'a Call) -> impl Iterator<Item = &'a Row> {
    let other = |row: &&Row| row.call().is_some_and(|second| second.reference != call.reference);
    board.rows.iter().filter(other)
}

fn linked(moment: &Moment, call: &Call, tally: &mut Tally) {
    let rules = moment.before.rules();
    let live = moment.before.rows.iter().filter_map(Row::call).filter(|call| call.link.is_some()).count();
    if call.link.is_some() {
        tally.add((rules, RuleSeen::LinkAgain));
        return tally.add_if(live == MAX_LIVE, Seen::LinkAgainFull);
    }
    if live == MAX_LIVE {
        return tally.add((rules, RuleSeen::LinkNone));
    }
    let given = LinkId(moment.after.candidate.0.wrapping_sub(1)).0;
    tally.add((rules, RuleSeen::LinkNew));
    tally.add_if(live == MAX_LIVE - 1, Seen::LinkSixteenth);
    tally.add_if(given == i16::MAX, Seen::LinkWrap);
    tally.add_if(given == i16::MIN, Seen::LinkLowest);
    tally.add_if(given != moment.before.candidate.0, Seen::LinkSkip);
    let forms = [Seen::LinkPositiveOne, Seen::LinkPositiveTwo, Seen::LinkNegativeOne, Seen::LinkNegativeTwo];
    tally.add(forms[form(given)]);
}

fn executed(moment: &Moment, named: &Row, call: &Call, past: &mut Past, tally: &mut Tally) {
    let board = moment.before;
    let verdicts =
        || others(board, call).filter_map(Row::call).map(|second| verdict(board.rules(), call, second));
    let fitting: Vec<&Row> = others(board, call)
        .filter(|row| row.call().is_some_and(|second| pairs(call, second, board.alerting)))
        .collect();
    let alerting_off = !alerting_allowed(board.alerting) && verdicts().any(|verdict| verdict == 2);
    let &[other] = fitting.as_slice() else {
        tally.add(if fitting.is_empty() { Seen::ExecuteNone } else { Seen::ExecuteSeveral });
        return tally.add_if(fitting.is_empty() && alerting_off, Seen::ExecuteAlertingOff);
    };
    tally.add_if(alerting_off, Seen::TransferPassesAlerting);
    let requested = others(board, call).filter_map(Row::call).any(|second| {
        second.aux == Aux::HoldRequest && second.state == CallState::Active && call.aux == Aux::Idle
    });
    tally.add_if(requested, Seen::TransferPassesHoldRequest);
    transferred(board, named, other, Asked::Execute, past, tally);
}

fn explicit(moment: &Moment, named: &Row, call: &Call, link: LinkId, past: &mut Past, tally: &mut Tally) {
    let (board, rules) = (moment.before, moment.before.rules());
    let Some(other) = row_of(board, |call| call.link == Some(link)) else {
        tally.add((rules, RuleSeen::NotAssigned));
        tally.add_if(link.0 < 0, Seen::NotAssignedNegative);
        tally.add_if(link.0 == 128, Seen::NotAssigned0080);
        tally.add_if(link.0 == -129, Seen::NotAssignedFF7F);
        return tally.add_if(past.links.contains(&link), (rules, RuleSeen::NotAssignedGone));
    };
    let Some(second) = other.call() else { return };
    if other.leg == named.leg {
        return own_link(board, call, tally);
    }
    if !pairs(call, second, board.alerting) {
        return not_paired(rules, call, second, tally);
    }
    link_form(link, tally);
    if rules == RuleSet::American {
        notice_american::by_link(moment.record, link, tally);
    }
    transferred(board, named, other, Asked::by_link(rules), past, tally);
}

fn own_link(board: &Board, call: &Call, tally: &mut Tally) {
    tally.add((board.rules(), RuleSeen::OwnLink));
    if board.rules() == RuleSet::American {
        notice_american::own_link(board, call, tally);
    }
}

fn not_paired(rules: RuleSet, named: &Call, other: &Call, tally: &mut Tally) {
    tally.add((rules, RuleSeen::LinkNoPair));
    if verdict(rules, named, other) != 2 {
        return;
    }
    let named_alerts = named.state == CallState::Delivered;
    let seen = if named_alerts { RuleSeen::AlertingOffNamed } else { RuleSeen::AlertingOffOther };
    tally.add((rules, seen));
    if rules == RuleSet::American {
        notice_american::not_allowed(named, other, tally);
    }
}

fn link_form(link: LinkId, tally: &mut Tally) {
    let forms = [
        Seen::ExplicitPositiveOne,
        Seen::ExplicitPositiveTwo,
        Seen::ExplicitNegativeOne,
        Seen::ExplicitNegativeTwo,
    ];
    tally.add(forms[form(link.0)]);
    tally.add_if(link.0 == i16::MIN, Seen::ExplicitLowest);
    tally.add_if(link.0 == 128, Seen::Explicit0080);
    tally.add_if(link.0 == -129, Seen::ExplicitFF7F);
}
