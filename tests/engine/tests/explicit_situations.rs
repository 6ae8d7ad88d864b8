//! The listed situations of a board on which both calls of a transfer must be named, each by its own
//! test.

mod common;

use common::{dropped, error, reply, tell, Desk, DONE, ID, NOT_ASSIGNED};
use engine::board::{LinkId, Reference};
use engine::records::{self, execute, explicit_link, facility, link_request};

/// The Reject with the identifier, invoke problem 1.
const UNRECOGNISED: &[u8] = &[0xA4, 6, 2, 1, 5, 0x81, 1, 1];

/// Call 1 Active and Held, call 2 Idle and in that state.
fn two(subscribed: u8, alerting: u8, state: u8) -> Desk {
    let mut desk = Desk::new(subscribed, alerting);
    desk.call(1, 0, 10, 2);
    desk.call(2, 0, state, 0);
    desk
}

/// None that pairs, one, several, on either call; with a further element too.
#[test]
fn execute_whatever_the_calls() {
    for alerting in 0..=3 {
        let mut desk = Desk::new(2, alerting);
        let calls = [(0, 10, 2), (1, 10, 0), (0, 10, 0), (0, 4, 0), (1, 7, 0), (0, 3, 0)];
        for (reference, (direction, state, aux)) in (1..).zip(calls) {
            desk.call(reference, direction, state, aux);
            desk.link(reference);
            let before = desk.board.clone();
            for named in 1..=reference {
                let (execute, behind) = (execute(ID), records::invoke(&[ID, &[2, 1, 6], &[5, 0]]));
                assert_eq!(desk.ask(named, &execute), UNRECOGNISED);
                assert_eq!(desk.ask(named, &behind), UNRECOGNISED);
            }
            assert_eq!(desk.board, before);
        }
        assert_eq!(desk.ask(1, &execute(&[2, 2, 1, 5])), [0xA4, 7, 2, 2, 1, 5, 0x81, 1, 1]);
    }
}

/// The same calls with each first octet.
#[test]
fn execute_by_first_octet() {
    for alerting in [0, 1] {
        let ask = |subscribed| two(subscribed, alerting, 10).ask(1, &execute(ID));
        assert_eq!([ask(0), ask(1), ask(2)], [error(0), DONE.to_vec(), UNRECOGNISED.to_vec()]);
    }
    for alerting in [2, 3] {
        let ask = |subscribed| two(subscribed, alerting, 10).ask(1, &execute(ID));
        assert_eq!([ask(0), ask(1), ask(2)], [UNRECOGNISED; 3]);
    }
}

/// What cannot be read is rejected as ever, and so is a padded 6.
#[test]
fn components() {
    let mut desk = two(2, 1, 10);
    assert_eq!(desk.ask(1, &records::invoke(&[ID, &[2, 1, 7]])), UNRECOGNISED);
    assert_eq!(
        desk.ask(1, &records::invoke(&[ID, &records::long_integer(6)])),
        [0xA4, 6, 2, 1, 5, 0x80, 1, 1]
    );
    assert_eq!(desk.ask(1, &execute(&[2, 2, 0, 5])), [0xA4, 5, 5, 0, 0x80, 1, 1]);
    assert_eq!(desk.ok(&facility(Reference(1), &[0xA2])), []);
}

#[test]
fn link_ids_as_with_first_octet_1() {
    for alerting in 0..=3 {
        let results = [1, 2].map(|subscribed| {
            let mut desk = Desk::new(subscribed, alerting);
            let mut components = Vec::new();
            for reference in 1..=17 {
                desk.call(reference, 0, 3, 0);
                components.push(desk.ask(reference, &link_request(ID)));
            }
            components.push(desk.ask(3, &link_request(ID)));
            components
        });
        assert_eq!(results[0], results[1]);
        assert_eq!(results[1][16], error(11));
        assert_eq!(results[1][17], results[1][2]);
        assert_eq!(results[1][2][0], 0xA2);
    }
}

#[test]
fn explicit_as_with_first_octet_1() {
    for (subscribed, alerting) in [(1, 0), (1, 1), (1, 2), (1, 3), (2, 0), (2, 1), (2, 2), (2, 3)] {
        let mut desk = two(subscribed, alerting, 10);
        let link = desk.link(2).unwrap();
        assert_eq!(desk.ask(2, &explicit_link(ID, link)), error(7));
        assert_eq!(desk.ask(1, &explicit_link(ID, LinkId(9))), NOT_ASSIGNED);
        let tells = [tell(101, 0, 0xEA, 1, 1, b"002"), tell(102, 0, 0xEA, 1, 1, b"001")];
        let octets = desk.ok(&facility(Reference(1), &explicit_link(ID, link)));
        assert_eq!(octets, [reply(1, DONE), dropped(1, 2), tells.concat()].concat());
    }
}

/// A party that alerts is transferred where the option "alerting" allows it.
#[test]
fn alerting_parties() {
    for (alerting, expected) in [(0, error(7)), (1, DONE.to_vec()), (2, error(7)), (3, DONE.to_vec())] {
        for (named, other) in [(1, 2), (2, 1)] {
            let mut desk = two(2, alerting, 4);
            let link = desk.link(other).unwrap();
            assert_eq!(desk.ask(named, &explicit_link(ID, link)), expected);
        }
    }
}

#[test]
fn not_subscribed() {
    for alerting in [0, 1] {
        let mut desk = two(0, alerting, 10);
        for component in [execute(ID), link_request(ID), explicit_link(ID, LinkId(0))] {
            assert_eq!(desk.ask(1, &component), error(0));
        }
    }
}
