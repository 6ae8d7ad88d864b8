//! American rules: what is transferred, told and answered, and the second judgement of it.

mod common;

use common::{calls, dropped, error, refused, reply, tell, Desk, DONE, ID, NOT_ASSIGNED};
use engine::american::may_be_transferred;
use engine::board::{Board, Call, LinkId, Reference, Row, Standing};
use engine::records::{self, answer, execute, explicit, explicit_link, facility, link_request, long_integer};
use engine::rules::RuleSet;
use engine::serve::pairs;

const UNRECOGNISED: &[u8] = &[0xA4, 6, 2, 1, 5, 0x81, 1, 1];

#[test]
fn rule_sets_by_option() {
    let expected = [RuleSet::European, RuleSet::European, RuleSet::American, RuleSet::American];
    assert_eq!([0, 1, 2, 3].map(|alerting| Board::empty(1, alerting).rules()), expected);
}

/// Two calls in each of the situations, on a board of each option: transferred by name just where they
/// pair, by the formula and by counting.
#[test]
fn each_two_situations() {
    let sound: Vec<Call> = calls().into_iter().filter(Call::sound).collect();
    for alerting in [2, 3] {
        for a in &sound {
            for b in &sound {
                let mut desk = Desk::new(1, alerting);
                desk.call(1, a.direction, a.state as u8, a.aux as u8);
                desk.call(2, b.direction, b.state as u8, b.aux as u8);
                let link = desk.link(2).unwrap();
                let fits = pairs(a, b, alerting);
                assert_eq!(may_be_transferred(&desk.board, 0, 1), fits, "{a:?} {b:?}");
                assert_eq!(may_be_transferred(&desk.board, 1, 0), fits, "{a:?} {b:?}");
                let expected = if fits { DONE.to_vec() } else { error(7) };
                assert_eq!(desk.ask(1, &explicit_link(ID, link)), expected, "{a:?} {b:?}");
            }
        }
    }
}

/// A third call that pairs too makes no difference to ExplicitEctExecute.
#[test]
fn third_calls() {
    let mut desk = Desk::new(1, 2);
    for reference in 1..=5 {
        desk.call(reference, 0, 10, 0);
    }
    let link = desk.link(4).unwrap();
    assert_eq!(desk.ask(2, &explicit_link(ID, link)), DONE);
    assert_eq!([2, 4].map(|reference| desk.find(reference)), [None, None]);
}

/// What cannot be read is rejected as by European rules, and an EctExecute whatever lies behind it.
#[test]
fn components() {
    for (subscribed, alerting) in [(0, 2), (1, 3), (2, 2)] {
        let mut desk = Desk::new(subscribed, alerting);
        desk.call(1, 0, 10, 0);
        assert_eq!(desk.ask(1, &records::invoke(&[ID, &[2, 1, 6], &[0x30, 2, 5, 0]])), UNRECOGNISED);
        assert_eq!(desk.ask(1, &records::invoke(&[ID, &[2, 1, 7]])), UNRECOGNISED);
        assert_eq!(desk.ask(1, &records::invoke(&[ID, &long_integer(6)])), [0xA4, 6, 2, 1, 5, 0x80, 1, 1]);
        assert_eq!(desk.ask(1, &execute(&[2, 2, 0, 5])), [0xA4, 5, 5, 0, 0x80, 1, 1]);
        assert_eq!(desk.ask(1, &execute(&[2, 2, 1, 5])), [0xA4, 7, 2, 2, 1, 5, 0x81, 1, 1]);
        assert_eq!(desk.ask(1, &explicit(ID, &long_integer(5))), [0xA4, 6, 2, 1, 5, 0x81, 1, 2]);
        assert_eq!(desk.ok(&facility(Reference(1), &[0xA2])), []);
    }
    let mut desk = Desk::new(1, 3);
    desk.call(1, 0, 10, 0);
    assert_eq!(desk.ask(1, &explicit_link(ID, LinkId(0))), NOT_ASSIGNED);
    assert_eq!(desk.ask(1, &link_request(ID))[0], 0xA2);
}

/// Presentation and digits of a row with the mark and the digits that are told of it.
type Told = (u8, &'static [u8], u8, &'static [u8]);

const NUMBERS: [Told; 5] = [
    (0, b"", 0, b""),
    (1, b"", 0, b""),
    (0, b"21", 1, b"21"),
    (1, b"33", 2, b""),
    (0, b"123456789012345", 1, b"123456789012345"),
];

fn parties(alerting: u8, state: u8, [first, second]: [Told; 2]) -> Desk {
    common::two_idle(alerting, state, [(first.0, first.1), (second.0, second.1)])
}

#[test]
fn numbers_of_a_transfer_and_of_an_answer() {
    for first in NUMBERS {
        for second in NUMBERS {
            let (to_7, to_9) = ((second.2, second.3), (first.2, first.3));
            let mut desk = parties(2, 10, [first, second]);
            let link = desk.link(1).unwrap();
            let octets = desk.ok(&facility(Reference(2), &explicit_link(ID, link)));
            let tells = [tell(9, 0, 0xEA, to_9.0, 1, to_9.1), tell(7, 0, 0xEA, to_7.0, 1, to_7.1)];
            assert_eq!(octets, [reply(2, DONE), dropped(2, 1), tells.concat()].concat());
            let mut desk = parties(3, 4, [first, second]);
            let link = desk.link(1).unwrap();
            let octets = desk.ok(&facility(Reference(2), &explicit_link(ID, link)));
            assert_eq!(octets, [reply(2, DONE), dropped(2, 1), tell(7, 0, 0xE9, 0, 1, b"")].concat());
            let tells = [tell(7, 0, 0xEA, to_7.0, 0, to_7.1), tell(9, 0, 0xEA, to_9.0, 0, to_9.1)];
            assert_eq!(desk.ok(&answer(9)), tells.concat());
        }
    }
}

/// By European rules the alerting party is told at the transfer and nothing when it answers.
#[test]
fn european_rules_as_before() {
    let mut desk = parties(1, 4, [NUMBERS[2], NUMBERS[4]]);
    assert_eq!(desk.ask(1, &execute(ID)), error(7));
    for aux in [1, 2] {
        desk.ok(&records::hold(Reference(1), aux));
    }
    let octets = desk.ok(&facility(Reference(1), &execute(ID)));
    let tells = [tell(7, 0, 0xE9, 0, 1, b""), tell(9, 1, 0xEA, 1, 0, b"21")];
    assert_eq!(octets, [reply(1, DONE), dropped(1, 2), tells.concat()].concat());
    assert_eq!(desk.ok(&answer(9)), tell(7, 0, 0xEA, 1, 0, b"123456789012345"));
}

/// A party that was transferred while alerting goes, or its partner does: nobody is told.
#[test]
fn released_before_it_answers() {
    for (leg, other) in [(7, 9), (9, 7)] {
        let mut desk = parties(3, 4, [NUMBERS[2], NUMBERS[2]]);
        let link = desk.link(2).unwrap();
        desk.ok(&facility(Reference(1), &explicit_link(ID, link)));
        assert_eq!(desk.ok(&records::release(leg)), [0x84, 0, 0, 0, other]);
        assert_eq!(refused(&desk.board, &answer(9)), 10);
    }
}

/// Rows keep their places, legs, presentations and digits.
#[test]
fn rows_are_kept() {
    let mut desk = parties(3, 4, [NUMBERS[3], NUMBERS[4]]);
    let link = desk.link(2).unwrap();
    let before = desk.board.clone();
    desk.ok(&facility(Reference(1), &explicit_link(ID, link)));
    let joined = |place: usize, partner, alerts| Row {
        standing: Standing::Joined { partner, alerts },
        ..before.rows[place]
    };
    assert_eq!(desk.board.rows[..2], [joined(0, 9, false), joined(1, 7, true)]);
    desk.ok(&answer(9));
    assert_eq!(desk.board.rows[..2], [joined(0, 9, false), joined(1, 7, false)]);
}
