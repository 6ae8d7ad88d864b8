//! Serving a Facility event.

use crate::board::{Aux, Board, Call, CallState, LinkId, Row, Standing, MAX_LIVE, OUTGOING, ROWS};
use crate::component::{read, Operation, Reading, INVOKE, LINK_REQUEST};
use crate::lookup::Lookup;
use crate::reply::{Component, Message, Replies, Told, ACTIVE, ALERTING};
use crate::rules::{alerting_allowed, RuleSet};
use crate::subscription::{both_named, REFUSED};

pub const NOT_SUBSCRIBED: u8 = 0;
pub const INVALID_STATE: u8 = 7;
pub const UNAVAILABLE: u8 = 11;
/// The invoke problem of an operation that is not served.
pub const UNRECOGNISED: u8 = 1;

enum Outcome {
    Unrecognised,
    Error(u8),
    NotAssigned,
    Link(LinkId),
    Transfer(usize),
}

/// Serves a component on the call at `place`.
pub fn serve(
    board: &mut Board,
    place: usize,
    call: Call,
    index: &impl Lookup,
    component: &[u8],
    replies: &mut Replies,
) {
    let (identifier, operation) = match read(component) {
        Reading::Nothing => return,
        Reading::Reject { identifier, sort, problem } => {
            return replies.reply(call.reference, &Component::reject(identifier, sort, problem));
        }
        Reading::Invoke { identifier, operation } => (identifier, operation),
    };
    let outcome = decide(board, place, &call, index, operation);
    let component = match outcome {
        Outcome::Unrecognised => Component::reject(identifier, INVOKE, UNRECOGNISED),
        Outcome::Error(value) => Component::error(identifier, value),
        Outcome::NotAssigned => Component::not_assigned(identifier),
        Outcome::Link(link) => Component::link_result(identifier, LINK_REQUEST, link),
        Outcome::Transfer(_) => Component::result(identifier),
    };
    replies.reply(call.reference, &component);
    match outcome {
        Outcome::Link(link) => keep_link(board, place, call, link),
        Outcome::Transfer(other) => transfer(board, place, other, replies),
        _ => {}
    }
}

fn decide(board: &Board, place: usize, call: &Call, index: &impl Lookup, operation: Operation) -> Outcome {
    if operation == Operation::Execute && both_named(board) {
        return Outcome::Unrecognised;
    }
    if board.subscribed == REFUSED {
        return Outcome::Error(NOT_SUBSCRIBED);
    }
    let partner = match operation {
        Operation::LinkRequest => {
            return match call.link {
                Some(link) => Outcome::Link(link),
                None if index.live(&board.rows) >= MAX_LIVE => Outcome::Error(UNAVAILABLE),
                None => Outcome::Link(free_link(board)),
            };
        }
        Operation::Execute => only_partner(board, place, call),
        Operation::Explicit(link) => match holder(board, link) {
            None => return Outcome::NotAssigned,
            Some(other) => Some(other).filter(|&other| fits(board, place, call, other)),
        },
    };
    partner.map_or(Outcome::Error(INVALID_STATE), Outcome::Transfer)
}

/// The place of the call with a live LinkId.
fn holder(board: &Board, link: LinkId) -> Option<usize> {
    board.rows.iter().position(|row| row.call().is_some_and(|call| call.link == Some(link)))
}

/// The first value not live from the candidate upward; at most 16 are live, so it ends.
fn free_link(board: &Board) -> LinkId {
    let mut link = board.candidate;
    while holder(board, link).is_some() {
        link = link.next();
    }
    link
}

/// Gives a call its LinkId and moves the candidate; a LinkId given again changes nothing.
fn keep_link(board: &mut Board, place: usize, call: Call, link: LinkId) {
    if call.link.is_none() {
        board.rows[place].standing = Standing::Served(Call { link: Some(link), ..call });
        board.candidate = link.next();
    }
}

/// 1 both Active, 2 one Active and one Delivered and outgoing, else 0.
pub fn verdict(rules: RuleSet, a: &Call, b: &Call) -> u8 {
    use CallState::{Active, Delivered};
    if !in_order(rules, a.aux, b.aux) {
        return 0;
    }
    match (a.state, b.state) {
        (Active, Active) => 1,
        (Active, Delivered) if b.direction == OUTGOING => 2,
        (Delivered, Active) if a.direction == OUTGOING => 2,
        _ => 0,
    }
}

/// Whether the auxiliary states are in order: one held and the other idle; by American rules
/// both idle too.
fn in_order(rules: RuleSet, a: Aux, b: Aux) -> bool {
    match (a, b) {
        (Aux::Held, Aux::Idle) | (Aux::Idle, Aux::Held) => true,
        (Aux::Idle, Aux::Idle) => rules == RuleSet::American,
        _ => false,
    }
}

pub fn pairs(a: &Call, b: &Call, alerting: u8) -> bool {
    pairs_at(verdict(RuleSet::of(alerting), a, b), alerting)
}

/// Whether two calls of a verdict pair under the alerting option.
pub fn pairs_at(verdict: u8, alerting: u8) -> bool {
    match verdict {
        1 => true,
        2 => alerting_allowed(alerting),
        _ => false,
    }
}

/// The one other call that pairs with the named one; none if there is no or no single one.
fn only_partner(board: &Board, place: usize, call: &Call) -> Option<usize> {
    let mut fitting = (0..ROWS).filter(|&other| fits(board, place, call, other));
    let first = fitting.next();
    if fitting.next().is_some() {
        return None;
    }
    first
}

/// Whether the row at `other` is another call that pairs with the named one. A call may have
/// verdict 1 with itself, so that it is known by its place and not by the verdict.
fn fits(board: &Board, place: usize, call: &Call, other: usize) -> bool {
    let second = board.rows[other].call();
    other != place && second.is_some_and(|second| pairs(call, second, board.alerting))
}

fn transfer(board: &mut Board, named: usize, other: usize, replies: &mut Replies) {
    let (first, second) = (board.rows[named], board.rows[other]);
    let (Some(a), Some(b)) = (first.call(), second.call()) else { return };
    let (a_alerts, b_alerts) = (a.state == CallState::Delivered, b.state == CallState::Delivered);
    replies.drop_call(a.reference);
    replies.drop_call(b.reference);
    let rules = board.rules();
    tell_joined(rules, (&first, a_alerts), (&second, b_alerts), replies);
    tell_joined(rules, (&second, b_alerts), (&first, a_alerts), replies);
    board.rows[named].standing = Standing::Joined { partner: second.leg, alerts: a_alerts };
    board.rows[other].standing = Standing::Joined { partner: first.leg, alerts: b_alerts };
}

/// Tells a party of its new partner, each with whether it alerts. By American rules a party
/// that alerts is told when it answers.
fn tell_joined(rules: RuleSet, to: (&Row, bool), about: (&Row, bool), replies: &mut Replies) {
    let ((row, alerts), (partner, partner_alerts)) = (to, about);
    match (alerts, partner_alerts) {
        (_, true) => replies.tell(row.leg, Message::Facility, ALERTING, 1, Told::Unknown),
        (true, _) if rules == RuleSet::American => {}
        (true, _) => replies.tell(row.leg, Message::Notify, ACTIVE, 0, Told::of(partner)),
        _ => replies.tell(row.leg, Message::Facility, ACTIVE, 1, Told::of(partner)),
    }
}
