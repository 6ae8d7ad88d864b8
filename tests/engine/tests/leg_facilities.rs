//! Leg facilities: what is passed on, what is refused, and what has to hold.

mod common;

use common::{met, pass_on, refused, Desk, ID};
use engine::board::{Board, Reference, Standing};
use engine::notice::Moment;
use engine::places::stands;
use engine::records::{
    answer, element, execute, facility, leg_facility, link_request, open, progress, release,
    subaddress_transfer,
};

fn right() -> Vec<u8> {
    subaddress_transfer(ID, &[4, 1, 0x37])
}

/// Components that are no SubaddressTransfer invoke, and those that a Facility is answered or served for.
fn wrong() -> [Vec<u8>; 5] {
    [vec![0xA1], vec![0xA2], vec![0; 64], execute(ID), link_request(ID)]
}

/// Plays a Leg facility that has to be passed on, and leave the board as it was.
fn passed(desk: &mut Desk, leg: u32, component: &[u8]) -> Vec<u8> {
    let before = desk.board.clone();
    let octets = desk.ok(&leg_facility(leg, component));
    assert_eq!(desk.board, before);
    octets
}

#[test]
fn between_joined_legs() {
    for alerts in [false, true] {
        let mut desk = Desk::joined(alerts);
        for component in [right(), subaddress_transfer(&[2, 2, 1, 0], &element(0x30, &element(4, &[9; 20])))]
        {
            assert_eq!(passed(&mut desk, 101, &component), pass_on(102, &component));
            assert_eq!(passed(&mut desk, 102, &component), pass_on(101, &component));
        }
        if alerts {
            desk.ok(&answer(102));
            assert_eq!(passed(&mut desk, 102, &right()), pass_on(101, &right()));
            assert_eq!(passed(&mut desk, 101, &right()), pass_on(102, &right()));
        }
        assert_eq!(refused(&desk.board, &answer(102)), 11);
        assert_eq!(desk.ok(&release(102)), [0x84, 0, 0, 0, 101]);
        for leg in [101, 102] {
            assert_eq!(refused(&desk.board, &leg_facility(leg, &right())), 10);
        }
    }
}

/// All octets go on, those beyond 32 too, zeros at the end too.
#[test]
fn unchanged() {
    let mut desk = Desk::joined(true);
    for length in 1..=20u8 {
        for last in [0, 0xFF] {
            let mut octets: Vec<u8> = (1..=length).collect();
            octets[length as usize - 1] = last;
            let inner = [element(4, &octets), vec![1, 1, last]].concat();
            for argument in [element(4, &octets), element(0x30, &inner)] {
                let component = subaddress_transfer(&[2, 2, 0xFF, 0x7F], &argument);
                assert_eq!(passed(&mut desk, 102, &component), pass_on(101, &component));
            }
        }
    }
}

/// Whatever the options of the board are: those under which nothing is transferred too.
#[test]
fn options_make_no_difference() {
    for (subscribed, alerting) in common::OPTIONS {
        let mut desk = Desk::joined(true);
        (desk.board.subscribed, desk.board.alerting) = (subscribed, alerting);
        assert_eq!(passed(&mut desk, 102, &right()), pass_on(101, &right()));
        for component in wrong() {
            assert_eq!(refused(&desk.board, &leg_facility(102, &component)), 12);
        }
    }
}

#[test]
fn any_leg_number() {
    let mut desk = Desk::new(1, 0);
    for (reference, leg) in [(1, 0), (2, u32::MAX)] {
        desk.ok(&open(Reference(reference), leg, 0, 0, b""));
        desk.ok(&progress(Reference(reference), 10));
    }
    assert_eq!(refused(&desk.board, &leg_facility(0, &right())), 11);
    for aux in [1, 2] {
        desk.ok(&engine::records::hold(Reference(1), aux));
    }
    desk.ask(2, &execute(ID));
    assert_eq!(passed(&mut desk, 0, &right()), pass_on(u32::MAX, &right()));
    assert_eq!(passed(&mut desk, u32::MAX, &right()), pass_on(0, &right()));
    desk.ok(&release(u32::MAX));
    assert_eq!(refused(&desk.board, &leg_facility(0, &right())), 10);
}

#[test]
fn served_in_any_state() {
    for (direction, state, aux) in [(0, 3, 0), (0, 4, 0), (0, 4, 2), (1, 7, 0), (1, 10, 0), (0, 10, 3)] {
        for subscribed in [0, 1, 2] {
            let mut desk = Desk::new(subscribed, 1);
            desk.call(1, direction, state, aux);
            assert_eq!(refused(&desk.board, &leg_facility(101, &right())), 11);
            assert_eq!(refused(&desk.board, &leg_facility(1, &right())), 10);
        }
    }
}

/// On a call the operation is one that is not served, with its argument or without.
#[test]
fn in_a_facility() {
    for subscribed in [0, 1, 2] {
        let mut desk = Desk::new(subscribed, 1);
        desk.call(1, 0, 10, 0);
        for argument in
            [vec![4, 1, 0x37], vec![0x30, 3, 4, 1, 0x37], vec![0x30, 6, 4, 1, 0x37, 1, 1, 0], vec![]]
        {
            let component = subaddress_transfer(ID, &argument);
            assert_eq!(desk.ask(1, &component), [0xA4, 6, 2, 1, 5, 0x81, 1, 1]);
        }
    }
    // The references of joined legs are gone.
    assert_eq!(refused(&Desk::joined(false).board, &facility(Reference(1), &right())), 9);
}

/// What the engine may not do with a Leg facility is a fault.
#[test]
fn differences_are_faults() {
    let board = Desk::joined(true).board;
    let mut answered = board.clone();
    answered.rows[1].standing = Standing::Joined { partner: 101, alerts: false };
    let fault = |after: &Board, record: &[u8], returned, written: &[u8]| {
        stands(&Moment { before: &board, after, record, returned, written })
    };
    let (record, wrong) = (leg_facility(102, &right()), leg_facility(102, &[0xA1]));
    let mut cut = pass_on(101, &right());
    cut[5 + right().len()] = 0;
    assert_eq!(fault(&board, &record, 0, &pass_on(101, &right())), Ok(()));
    assert_eq!(fault(&board, &wrong, 12, &[]), Ok(()));
    assert!(fault(&answered, &record, 0, &pass_on(101, &right()))
        .unwrap_err()
        .contains("the board has changed"));
    for written in [pass_on(102, &right()), cut, vec![]] {
        assert!(fault(&board, &record, 0, &written).unwrap_err().contains("has to return 0"));
    }
    assert!(fault(&board, &wrong, 0, &pass_on(101, &[0xA1])).unwrap_err().contains("has to return 12"));
    assert!(fault(&board, &wrong, 11, &[]).unwrap_err().contains("has to return 12"));
    assert!(fault(&board, &leg_facility(103, &right()), 11, &[]).unwrap_err().contains("has to return 10"));
    for (place, octet) in [(5, 0), (5, 65), (22, 1), (69, 1)] {
        let mut record = record.clone();
        record[place] = octet;
        assert!(fault(&board, &record, 12, &[]).unwrap_err().contains("has to return 5"));
    }
}

/// A log that joins legs 1 and 2, of which 2 alerts, and goes on so.
fn log(records: &[Vec<u8>]) -> Vec<u8> {
    let mut log = vec![1, 1];
    for (reference, state) in [(1, 10), (2, 4)] {
        log.extend(open(Reference(reference), reference as u32, 0, 0, b""));
        log.extend(progress(Reference(reference), state));
    }
    log.extend(engine::records::hold(Reference(1), 1));
    log.extend(engine::records::hold(Reference(1), 2));
    log.extend(facility(Reference(1), &execute(ID)));
    log.extend(records.concat());
    log
}

#[test]
fn what_occurs_in_the_logs() {
    let from = |leg| leg_facility(leg, &right());
    let has = |records: &[Vec<u8>], text: &str| {
        assert!(!met(&log(&[])).iter().any(|met| met == text));
        let met = met(&log(records));
        assert!(met.iter().any(|met| met == text), "{text}: {met:?}");
    };
    has(&[from(2)], "Pass on from the alerting leg");
    has(&[from(1)], "Pass on to the alerting leg");
    has(&[answer(2), from(1)], "Pass on to a leg that has answered");
    has(&[answer(2), from(2)], "Pass on from a leg that has answered");
    has(&[answer(2), from(2)], "Pass on, neither leg alerting");
    has(&[from(2), from(1)], "Pass on to a leg whose own was passed on");
    has(&[from(2), answer(2)], "Answer of a leg whose Leg facility was passed on");
    has(&[from(1), answer(2)], "Answer of a leg to which one was passed on");
    has(&[leg_facility(2, &[0]), answer(2)], "Answer of a leg whose Leg facility was refused with 12");
    has(&[from(1), answer(1)], "11: Answer of a leg not alerting whose Leg facility was passed on");
    has(&[from(1), release(1)], "Release of a leg whose Leg facility was passed on");
    has(&[from(1), release(2)], "Release of a leg to which one was passed on");
    has(&[release(2), from(2)], "10: Leg facility, leg was released");
    has(&[release(2), from(1)], "10: Leg facility, leg went with its partner");
    has(&[from(3)], "10: Leg facility, leg was never released");
    has(&[from(2)[..69].to_vec()], "Leg facility, 3: one octet short");
    has(&[from(2), vec![0]], "Leg facility, one octet behind it, then the log ends");
}
