//! Events held to the same with first octet 1 and 2, and what of them occurs in logs.

mod common;

use common::{dropped, error, judged, met, reply, Desk, DONE, ID};
use engine::alike::{exchanged, stands, Access};
use engine::board::{Board, LinkId, Reference, Standing};
use engine::notice::Moment;
use engine::records::{
    self, answer, execute, explicit_link, facility, hold, link_request, open, progress, release,
};

const UNRECOGNISED: &[u8] = &[0xA4, 6, 2, 1, 5, 0x81, 1, 1];

/// Call 1 Active and Held, call 2 Idle and in that state, with the LinkIds 0 and 1.
fn two(options: (u8, u8), state: u8) -> Board {
    let mut desk = Desk::new(options.0, options.1);
    desk.call(1, 0, 10, 2);
    desk.call(2, 0, state, 0);
    desk.link(1);
    desk.link(2);
    desk.board
}

fn on(reference: u16, component: &[u8]) -> Vec<u8> {
    facility(Reference(reference), component)
}

type Wrong = fn(&mut Vec<u8>, &mut Board);

#[test]
fn wrong_answers_to_an_execute_are_faults() {
    let wrongs: [Wrong; 6] = [
        |written, _| *written = reply(1, &error(7)),
        |written, _| *written = reply(1, &error(0)),
        |written, _| *written = reply(1, &[0xA4, 6, 2, 1, 5, 0x81, 1, 2]),
        |written, _| *written = reply(1, &[0xA4, 5, 5, 0, 0x81, 1, 1]),
        |written, _| *written = [reply(1, DONE), dropped(1, 2)].concat(),
        |_, board| board.rows[0].standing = Standing::Joined { partner: 102, alerts: false },
    ];
    for wrong in wrongs {
        for component in [execute(ID), records::invoke(&[ID, &[2, 1, 6], &[5, 0]])] {
            assert!(judged(stands, &two((2, 1), 10), &on(1, &component), wrong).is_err());
        }
    }
    // With 1 it is not rejected, nor refused for want of a subscription.
    let wrongs: [Wrong; 2] =
        [|written, _| *written = reply(1, UNRECOGNISED), |written, _| *written = reply(1, &error(0))];
    for wrong in wrongs {
        assert!(judged(stands, &two((1, 1), 10), &on(1, &execute(ID)), wrong).is_err());
    }
}

/// By American rules too, and of all other events: the number and the octets are the same, and the board
/// but for the option, which no event changes.
#[test]
fn other_differences_are_faults() {
    let rejected: Wrong = |written, _| *written = reply(1, UNRECOGNISED);
    let error_7: Wrong = |written, _| *written = reply(1, &error(7));
    let option: Wrong = |_, board| board.subscribed = 3 - board.subscribed;
    let unsubscribed: Wrong = |_, board| board.subscribed = 0;
    let candidate: Wrong = |_, board| board.candidate = LinkId(9);
    for subscribed in [1, 2] {
        for alerting in 0..=3 {
            let board = two((subscribed, alerting), 10);
            let transfer = on(1, &explicit_link(ID, LinkId(1)));
            for wrong in [rejected, error_7, option, unsubscribed, candidate] {
                assert!(judged(stands, &board, &transfer, wrong).is_err());
            }
            assert!(judged(stands, &board, &on(1, &link_request(ID)), rejected).is_err());
            for wrong in [option, unsubscribed, candidate] {
                assert!(judged(stands, &board, &release(101), wrong).is_err());
                assert!(judged(stands, &board, &on(9, &execute(ID)), wrong).is_err());
            }
            if alerting > 1 {
                assert!(judged(stands, &board, &on(1, &execute(ID)), error_7).is_err());
            }
        }
    }
}

#[test]
fn where_the_service_is_served() {
    let of = |options| Access::of(&Desk::new(options, 1).board);
    assert_eq!([0, 1, 2].map(of), [None, Some(Access::European1), Some(Access::European2)]);
    let board = Desk::new(0, 1).board;
    let moment = Moment { before: &board, after: &board, record: &release(1), returned: 10, written: &[] };
    assert_eq!(exchanged(&moment), None);
    assert_eq!(stands(&moment), Ok(()));
}

/// What occurs in a log of these events on calls 1 and 2 with legs 101 and 102.
fn has(options: [u8; 2], states: [(u8, u8); 2], records: &[Vec<u8>], text: &str) {
    let mut log = options.to_vec();
    for (reference, (state, aux)) in [1, 2].into_iter().zip(states) {
        log.extend(open(Reference(reference), 100 + reference as u32, 0, 0, b"12"));
        log.extend(progress(Reference(reference), state));
        (1..=aux).for_each(|aux| log.extend(hold(Reference(reference), aux)));
    }
    assert!(!met(&log).iter().any(|met| met == text), "{text}");
    log.extend(records.concat());
    assert!(met(&log).iter().any(|met| met == text), "{text}");
}

#[test]
fn what_occurs_in_the_logs() {
    let active = [(10, 2), (10, 0)];
    let alerting = [(10, 2), (4, 0)];
    let (link_1, link_2) = (on(1, &link_request(ID)), on(2, &link_request(ID)));
    let by_0 = |reference| on(reference, &explicit_link(ID, LinkId(0)));
    for (rules, allowed, not) in [("European", 1, 0), ("American", 3, 2)] {
        for (first, other) in [(1, 2), (2, 1)] {
            let has = |second, states, records: &[&Vec<u8>], text: &str| {
                let records: Vec<Vec<u8>> = records.iter().map(|record| record.to_vec()).collect();
                let text = format!("{rules}, first octet 0{first} as with 0{other}: {text}");
                has([first, second], states, &records, &text);
            };
            has(not, active, &[&link_1], "LinkId given");
            has(not, active, &[&link_1, &link_1], "LinkId given again");
            has(not, active, &[&link_2, &by_0(1)], "ExplicitEctExecute transfers, both Active");
            has(allowed, alerting, &[&link_2, &by_0(1)], "ExplicitEctExecute transfers, other call alerting");
            has(allowed, alerting, &[&link_1, &by_0(2)], "ExplicitEctExecute transfers, named call alerting");
            has(not, alerting, &[&link_1, &by_0(2)], "error 7: a party alerts, not allowed");
            has(not, active, &[&link_1, &by_0(1)], "error 7: own LinkId");
            has(not, active, &[&by_0(1)], "linkIdNotAssignedByNetwork");
            let answered = [&link_2, &by_0(1), &answer(102)];
            has(allowed, alerting, &answered, "Answer of a leg that was transferred alerting");
            has(not, active, &[&on(9, &execute(ID))], "9, EctExecute on a reference without a call");
        }
    }
}

#[test]
fn executes_that_occur_in_the_logs() {
    for (first, front) in [
        (1, "European, EctExecute with first octet 01, invoke problem 1 with 02: "),
        (2, "European, EctExecute with first octet 02, invoke problem 1: "),
    ] {
        let execute_on = |second, states, reference, text: &str| {
            has([first, second], states, &[on(reference, &execute(ID))], &format!("{front}{text}"));
        };
        execute_on(0, [(10, 2), (10, 0)], 1, "transfer with 01, both Active");
        execute_on(1, [(10, 2), (4, 0)], 1, "transfer with 01, other call alerting");
        execute_on(1, [(10, 2), (4, 0)], 2, "transfer with 01, named call alerting");
        execute_on(0, [(10, 2), (4, 0)], 2, "error 7 with 01, only an alerting call, not allowed");
        execute_on(1, [(10, 0), (10, 0)], 1, "error 7 with 01, no call pairs");
        execute_on(1, [(10, 0), (10, 0)], 1, "second octet 01");
    }
}
