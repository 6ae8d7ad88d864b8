//! American transfers and Answers as they are judged a second time, and what of them occurs in logs.

mod common;

use common::{dropped, error, judged, met, reply, tell, two_idle, Desk, DONE, ID};
use engine::american::{stands, wish, Wish};
use engine::board::{Board, LinkId, Number, Reference, Standing};
use engine::records::{
    self, answer, execute, explicit, explicit_link, facility, link_request, open, progress,
};

#[test]
fn components_by_their_places() {
    assert_eq!(wish(&execute(ID)), Some((ID, Wish::Execute)));
    assert_eq!(wish(&link_request(&[2, 2, 1, 0])), Some((&[2, 2, 1, 0][..], Wish::Request)));
    for value in [0, -1, 127, 128, -128, -129, i16::MIN, i16::MAX] {
        assert_eq!(wish(&explicit_link(ID, LinkId(value))), Some((ID, Wish::Link(value))));
    }
    for padded in [[0, 0], [0, 0x7F], [0xFF, 0x80], [0xFF, 0xFF]] {
        let integer = [&[2, 2], &padded[..]].concat();
        assert_eq!(wish(&execute(&integer)), None);
        assert_eq!(wish(&explicit(ID, &integer)), None);
        assert_eq!(wish(&records::invoke(&[ID, &integer])), None);
    }
    for component in [&[] as &[u8], &[0xA1], &[0xA1, 3, 2, 1, 5], &[0xA1, 4, 2, 1, 5, 2, 1, 6]] {
        assert_eq!(wish(component), None);
    }
}

type Wrong = fn(&mut Vec<u8>, &mut Board);

/// Presentations and digits of two parties.
const SHOWN: [(u8, &[u8]); 2] = [(0, b"21"), (0, b"123456789012345")];

#[test]
fn wrong_transfers_are_faults() {
    let wrongs: [Wrong; 6] = [
        |written, _| written.truncate(67),
        |written, _| written[42..].rotate_left(25),
        |written, _| written[36..42].rotate_left(3),
        |written, _| written[48] = 0xE9,
        |written, _| written[50] = 0,
        |_, board| board.rows[1].standing = Standing::Joined { partner: 7, alerts: true },
    ];
    for wrong in wrongs {
        let mut desk = two_idle(2, 10, SHOWN);
        let link = desk.link(2).unwrap();
        for component in [explicit_link(ID, link), with_null(&explicit_link(ID, link))] {
            assert!(judged(stands, &desk.board, &facility(Reference(1), &component), wrong).is_err());
        }
    }
}

/// The component with a further element behind.
fn with_null(component: &[u8]) -> Vec<u8> {
    records::invoke(&[&component[2..], &[5, 0]])
}

#[test]
fn a_tell_to_the_alerting_party_is_a_fault() {
    let mut desk = two_idle(3, 4, SHOWN);
    let link = desk.link(2).unwrap();
    let wrong: Wrong = |written, _| written.extend(tell(9, 1, 0xEA, 1, 0, b"21"));
    for component in [explicit_link(ID, link), with_null(&explicit_link(ID, link))] {
        assert!(judged(stands, &desk.board, &facility(Reference(1), &component), wrong).is_err());
    }
}

#[test]
fn wrong_answers_are_faults() {
    let mut desk = two_idle(3, 4, SHOWN);
    let link = desk.link(2).unwrap();
    desk.ok(&facility(Reference(1), &explicit_link(ID, link)));
    let wrongs: [Wrong; 6] = [
        |written, _| written.truncate(25),
        |written, _| written.rotate_left(25),
        |written, _| *written = [tell(7, 0, 0xEA, 1, 0, b"21"), tell(9, 0, 0xEA, 1, 0, b"21")].concat(),
        |written, _| written[8] = 1,
        |written, _| written[33] = 1,
        |_, board| board.rows[0].number = Number::NONE,
    ];
    for wrong in wrongs {
        assert!(judged(stands, &desk.board, &answer(9), wrong).is_err());
    }
}

/// The type is lost, kept though the number is withheld, or 0 and told.
#[test]
fn wrong_types_are_faults() {
    for (presentation, number_type, wrong) in [
        (0, 1, (|written, _| written[42..].clone_from_slice(&[0; 52])) as Wrong),
        (0, 1, |written, _| written[51] = 2),
        (0, 1, |written, _| {
            written[42] = 0x82;
            written.remove(51);
        }),
        (0, 0, |written, _| {
            written[42] = 0x86;
            written.insert(51, 0);
        }),
        (1, 2, |written, _| {
            written[42] = 0x86;
            written.insert(51, 2);
        }),
    ] {
        let mut desk = two_idle(2, 10, [(0, b"21"), (presentation, b"34")]);
        let link = desk.link(2).unwrap();
        desk.board.rows[1].number_type = number_type;
        desk.board.rows[0].number_type = number_type;
        assert!(
            judged(stands, &desk.board, &facility(Reference(1), &explicit_link(ID, link)), wrong).is_err()
        );
    }
}

#[test]
fn wrong_errors_are_faults() {
    let mut desk = Desk::new(0, 2);
    desk.call(1, 0, 10, 0);
    let wrong: Wrong = |written, _| *written = reply(1, &error(0));
    assert!(judged(stands, &desk.board, &facility(Reference(1), &execute(ID)), wrong).is_err());
    desk.board.subscribed = 1;
    let link = desk.link(1).unwrap();
    let wrong: Wrong = |written, board| {
        *written = [reply(1, DONE), dropped(1, 1)].concat();
        board.rows[0].standing = Standing::Joined { partner: 101, alerts: false };
    };
    assert!(judged(stands, &desk.board, &facility(Reference(1), &explicit_link(ID, link)), wrong).is_err());
    desk.call(2, 0, 10, 0);
    let link = desk.link(2).unwrap();
    let wrong: Wrong = |written, _| *written = reply(1, &error(7));
    assert!(judged(stands, &desk.board, &facility(Reference(1), &explicit_link(ID, link)), wrong).is_err());
}

/// What occurs in a log of these events on calls 1 and 2 with legs 101 and 102, Active and Idle or so.
fn occurs(alerting: u8, states: [(u8, u8); 2], records: &[Vec<u8>], text: &str) {
    let mut log = vec![1, alerting];
    for (reference, (state, aux)) in [1, 2].into_iter().zip(states) {
        log.extend(open(Reference(reference), 100 + reference as u32, 0, 0, b"12"));
        log.extend(progress(Reference(reference), state));
        (1..=aux).for_each(|aux| log.extend(records::hold(Reference(reference), aux)));
    }
    assert!(!met(&log).iter().any(|met| met == text), "{text}");
    log.extend(records.concat());
    assert!(met(&log).iter().any(|met| met == text), "{text}");
}

#[test]
fn what_occurs_in_the_logs() {
    let on = |reference, component: &[u8]| facility(Reference(reference), component);
    let (link_1, link_2) = (on(1, &link_request(ID)), on(2, &link_request(ID)));
    let by_0 = |reference| on(reference, &explicit_link(ID, LinkId(0)));
    let active = [(10, 0), (10, 0)];
    let alerting = [(10, 0), (4, 0)];
    let has = |option, states, records: &[&Vec<u8>], text: &str| {
        let records: Vec<Vec<u8>> = records.iter().map(|record| record.to_vec()).collect();
        occurs(option, states, &records, &format!("American: {text}"));
    };
    has(2, active, &[&on(1, &execute(ID))], "EctExecute gets invoke problem 1, one call pairs");
    has(
        2,
        [(10, 2), (10, 0)],
        &[&on(1, &execute(ID))],
        "EctExecute gets invoke problem 1, one call pairs by European rules too",
    );
    has(3, active, &[&link_1, &by_0(1)], "error 7: own LinkId, verdict 1 with itself, outgoing");
    has(3, [(10, 2), (10, 0)], &[&link_1, &by_0(1)], "error 7: own LinkId, verdict 0 with itself");
    has(2, active, &[&link_2, &by_0(1)], "transfer, neither held, both Active");
    has(3, alerting, &[&link_2, &by_0(1)], "transfer, neither held, other call alerting");
    has(3, alerting, &[&link_1, &by_0(2)], "transfer, neither held, named call alerting");
    has(3, [(10, 2), (4, 0)], &[&link_1, &by_0(2)], "transfer, one held, named call alerting");
    has(3, alerting, &[&link_1, &by_0(2)], "one Tell, to the lower leg");
    has(2, alerting, &[&link_2, &by_0(1)], "error 7: LinkId's call alerting, not allowed, neither held");
    has(3, alerting, &[&link_1, &by_0(2), &answer(102)], "Answer of the leg whose call was named");
    has(3, alerting, &[&link_2, &by_0(1), &answer(102)], "Answer of the leg whose call was not named");
    has(3, alerting, &[&link_2, &by_0(1), &answer(102)], "Answer, number shown, partner's shown");
    has(
        3,
        alerting,
        &[&link_2, &by_0(1), &answer(102), &answer(102)],
        "11: Answer of a leg that has answered",
    );
}
