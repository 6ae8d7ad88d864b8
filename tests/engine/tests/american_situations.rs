//! The listed situations of American rules, each by its own test.

mod common;

use common::{dropped, error, reply, tell, Desk, DONE, ID};
use engine::board::{Aux, Call, CallState, LinkId, Reference};
use engine::records::{answer, execute, explicit_link, facility, link_request};
use engine::rules::RuleSet;
use engine::serve::verdict;

/// The Reject with the identifier, invoke problem 1.
const UNRECOGNISED: &[u8] = &[0xA4, 6, 2, 1, 5, 0x81, 1, 1];

fn both(a: (CallState, Aux), b: (CallState, Aux)) -> u8 {
    let call = |(state, aux)| Call { reference: Reference(1), direction: 0, state, aux, link: None };
    let of = |a, b| verdict(RuleSet::American, &call(a), &call(b));
    assert_eq!(of(a, b), of(b, a));
    of(a, b)
}

#[test]
fn both_idle_both_held_and_hold_request() {
    use Aux::{Held, HoldRequest, Idle};
    use CallState::Active;
    assert_eq!(both((Active, Idle), (Active, Idle)), 1);
    assert_eq!(both((Active, Held), (Active, Held)), 0);
    assert_eq!(both((Active, HoldRequest), (Active, Idle)), 0);
}

#[test]
fn active_with_delivered() {
    use Aux::{Held, Idle};
    use CallState::{Active, Delivered};
    assert_eq!(both((Active, Idle), (Delivered, Idle)), 2);
    assert_eq!(both((Active, Held), (Delivered, Idle)), 2);
    assert_eq!(both((Active, Idle), (Delivered, Held)), 2);
}

#[test]
fn explicit_with_own_link_id() {
    for alerting in [2, 3] {
        for direction in [0, 1] {
            let mut desk = Desk::new(1, alerting);
            desk.call(1, direction, 10, 0);
            let link = desk.link(1).unwrap();
            let before = desk.board.clone();
            assert_eq!(desk.ask(1, &explicit_link(ID, link)), error(7));
            // Nor where another call would pair.
            desk.call(2, 0, 10, 0);
            assert_eq!(desk.ask(1, &explicit_link(ID, link)), error(7));
            assert_eq!(desk.board.rows[0], before.rows[0]);
            assert_eq!(desk.ask(2, &explicit_link(ID, link)), DONE);
        }
    }
}

#[test]
fn execute_whatever_the_option_subscribed() {
    for (subscribed, alerting) in [(0, 2), (0, 3), (1, 2), (1, 3), (2, 2), (2, 3)] {
        let mut desk = Desk::new(subscribed, alerting);
        desk.call(1, 0, 10, 2);
        assert_eq!(desk.ask(1, &execute(ID)), UNRECOGNISED);
        desk.call(2, 0, 10, 0);
        let before = desk.board.clone();
        assert_eq!(desk.ask(1, &execute(ID)), UNRECOGNISED);
        assert_eq!(desk.ask(2, &execute(ID)), UNRECOGNISED);
        assert_eq!(desk.board, before);
    }
}

#[test]
fn not_subscribed() {
    for alerting in [2, 3] {
        let mut desk = Desk::new(0, alerting);
        desk.call(1, 0, 10, 0);
        desk.call(2, 0, 10, 0);
        assert_eq!(desk.ask(1, &link_request(ID)), error(0));
        assert_eq!(desk.ask(1, &explicit_link(ID, LinkId(0))), error(0));
    }
}

/// Calls 1 and 2, in these call and auxiliary states, and what is written where the named one is
/// transferred.
fn transfer(alerting: u8, states: [(u8, u8); 2], named: u16) -> (Desk, Vec<u8>) {
    let mut desk = Desk::new(1, alerting);
    for (reference, (state, aux)) in [1, 2].into_iter().zip(states) {
        desk.call(reference, 0, state, aux);
    }
    let link = desk.link(3 - named).unwrap();
    let octets = desk.ok(&facility(Reference(named), &explicit_link(ID, link)));
    (desk, octets)
}

#[test]
fn two_active_idle_calls() {
    for alerting in [2, 3] {
        for (named, other) in [(1, 2), (2, 1)] {
            let (_, octets) = transfer(alerting, [(10, 0), (10, 0)], named);
            let told =
                |to: u16, about: u16| tell(100 + to as u32, 0, 0xEA, 1, 1, format!("{about:03}").as_bytes());
            let expected =
                [reply(named, DONE), dropped(named, other), told(named, other), told(other, named)];
            assert_eq!(octets, expected.concat());
        }
    }
}

/// Neither held, the Active one, or the Delivered one.
const ALERTING: [[(u8, u8); 2]; 3] = [[(10, 0), (4, 0)], [(10, 2), (4, 0)], [(10, 0), (4, 2)]];

#[test]
fn an_active_call_and_a_delivered_one() {
    for states in ALERTING {
        for (named, other) in [(1, 2), (2, 1)] {
            let (_, octets) = transfer(3, states, named);
            let expected = [reply(named, DONE), dropped(named, other), tell(101, 0, 0xE9, 0, 1, b"")];
            assert_eq!(octets, expected.concat());
        }
    }
}

#[test]
fn the_leg_that_alerts_answers() {
    for states in ALERTING {
        for named in [1, 2] {
            let (mut desk, _) = transfer(3, states, named);
            let expected = [tell(101, 0, 0xEA, 1, 0, b"002"), tell(102, 0, 0xEA, 1, 0, b"001")];
            assert_eq!(desk.ok(&answer(102)), expected.concat());
            assert_eq!(common::refused(&desk.board, &answer(102)), 11);
            assert_eq!(common::refused(&desk.board, &answer(101)), 11);
        }
    }
}
