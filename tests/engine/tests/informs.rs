//! Informs: what the far party is told, what is refused, and what has to hold.

mod common;

use common::{met, refused, tell, Desk, DONE, ID};
use engine::board::{Board, LinkId, Reference};
use engine::notice::Moment;
use engine::places::stands;
use engine::records::{ect_inform, execute, explicit_link, facility, hold, inform, open, progress, release};

const NONE: &[u8] = &[0x30, 3, 0x0A, 1, 1];
const RESTRICTED: &[u8] = &[0x30, 5, 0x0A, 1, 1, 0x81, 0];
const GIVEN: &[u8] = &[0x30, 9, 0x0A, 1, 1, 0xA0, 4, 0x80, 2, 0x36, 0x37];

/// The arguments with what a leg is told; first with the indication active, then alerting.
fn forms(leg: u32) -> Vec<(Vec<u8>, Vec<u8>)> {
    let active = [(NONE, 0, b"" as &[u8]), (RESTRICTED, 2, b""), (GIVEN, 1, b"67")];
    let mut forms = Vec::new();
    for (argument, mark, digits) in active {
        let mut alerting = argument.to_vec();
        alerting[4] = 0;
        forms.push((argument.to_vec(), tell(leg, 0, 0xEA, mark, 1, digits)));
        forms.push((alerting, tell(leg, 1, 0xE9, 0, 0, b"")));
    }
    forms
}

fn record(reference: u16, argument: &[u8]) -> Vec<u8> {
    inform(Reference(reference), &ect_inform(ID, argument))
}

/// Plays each form, which has to be told and leave the board as it was.
fn all_told(desk: &mut Desk, reference: u16, leg: u32) {
    let before = desk.board.clone();
    for (argument, told) in forms(leg) {
        assert_eq!(desk.ok(&record(reference, &argument)), told, "{argument:02x?}");
        assert_eq!(desk.board, before);
    }
}

#[test]
fn active_calls_under_any_options() {
    for (subscribed, alerting) in common::OPTIONS {
        for direction in [0, 1] {
            for aux in 0..=3 {
                let mut desk = Desk::new(subscribed, alerting);
                desk.call(1, direction, 10, aux);
                desk.call(2, 0, 10, 0);
                desk.link(1);
                all_told(&mut desk, 1, 101);
                all_told(&mut desk, 2, 102);
            }
        }
    }
}

#[test]
fn calls_in_other_states() {
    for (direction, state, aux) in [(0, 3, 0), (0, 4, 0), (0, 4, 1), (0, 4, 2), (0, 4, 3), (1, 7, 0)] {
        for subscribed in [0, 1, 2] {
            let mut desk = Desk::new(subscribed, 1);
            desk.call(1, direction, state, aux);
            for (argument, _) in forms(101) {
                assert_eq!(refused(&desk.board, &record(1, &argument)), 11);
                assert_eq!(refused(&desk.board, &record(101, &argument)), 9);
                assert_eq!(refused(&desk.board, &record(0x8001, &argument)), 9);
            }
        }
    }
}

/// Whatever the row has: neither its presentation nor its digits make a difference.
#[test]
fn own_number_is_not_told() {
    let numbers: [&[u8]; 4] = [b"", b"67", b"1", b"123456789012345"];
    for digits in numbers {
        for presentation in [0, 1] {
            let mut desk = Desk::new(1, 1);
            desk.ok(&open(Reference(0xFFFF), u32::MAX, 1, presentation, digits));
            desk.ok(&progress(Reference(0xFFFF), 10));
            all_told(&mut desk, 0xFFFF, u32::MAX);
        }
    }
}

/// What comes after is as if there had been no Inform: a transfer tells the own numbers.
#[test]
fn nothing_is_kept() {
    for (held, idle) in [(1, 2), (2, 1)] {
        let mut desk = Desk::new(1, 1);
        desk.call(held, 0, 10, 2);
        desk.call(idle, 0, 10, 0);
        let mut other = Desk { board: desk.board.clone() };
        all_told(&mut desk, 1, 101);
        all_told(&mut desk, 2, 102);
        let transfer = facility(Reference(1), &execute(ID));
        assert_eq!(desk.ok(&transfer), other.ok(&transfer));
        assert_eq!(desk.board, other.board);
    }
}

#[test]
fn reference_comes_before_all_else_in_the_record() {
    let mut desk = Desk::new(1, 1);
    desk.call(1, 0, 10, 0);
    for reference in [0, 0x8000] {
        for component in [ect_inform(ID, GIVEN), vec![0xA1], vec![0; 64]] {
            assert_eq!(refused(&desk.board, &inform(Reference(reference), &component)), 5);
        }
    }
}

/// References of joined legs are gone.
#[test]
fn joined_legs_have_no_call() {
    for reference in [1, 2, 101, 102] {
        assert_eq!(refused(&Desk::joined(true).board, &record(reference, GIVEN)), 9);
    }
}

/// On a call the operation is one that is not served, with its argument or without.
#[test]
fn in_a_facility() {
    for subscribed in [0, 1, 2] {
        let mut desk = Desk::new(subscribed, 1);
        desk.call(1, 0, 10, 0);
        for argument in forms(101).into_iter().map(|(argument, _)| argument).chain([vec![]]) {
            assert_eq!(desk.ask(1, &ect_inform(ID, &argument)), [0xA4, 6, 2, 1, 5, 0x81, 1, 1]);
        }
    }
}

/// What the engine may not do with an Inform is a fault.
#[test]
fn differences_are_faults() {
    let mut desk = Desk::new(1, 1);
    desk.ok(&open(Reference(1), 7, 0, 1, b"123"));
    desk.ok(&progress(Reference(1), 10));
    let board = desk.board.clone();
    desk.ok(&hold(Reference(1), 1));
    let fault = |after: &Board, record: &[u8], returned, written: &[u8]| {
        stands(&Moment { before: &board, after, record, returned, written })
    };
    for (argument, told) in forms(7) {
        let record = record(1, &argument);
        assert_eq!(fault(&board, &record, 0, &told), Ok(()));
        assert!(fault(&desk.board, &record, 0, &told).unwrap_err().contains("the board has changed"));
        for place in 0..25 {
            let mut written = told.clone();
            written[place] ^= 1;
            assert!(fault(&board, &record, 0, &written).unwrap_err().contains("has to return 0"));
        }
        for other in [vec![], tell(7, 0, 0xEA, 1, 1, b"123"), [told.clone(), told].concat()] {
            assert!(fault(&board, &record, 0, &other).unwrap_err().contains("has to return 0"));
        }
    }
    let wrong = inform(Reference(1), &[0xA1]);
    assert_eq!(fault(&board, &wrong, 12, &[]), Ok(()));
    assert!(fault(&board, &wrong, 11, &[]).unwrap_err().contains("has to return 12"));
    assert!(fault(&board, &record(2, NONE), 11, &[]).unwrap_err().contains("has to return 9"));
    for (place, octet) in [(2, 0), (3, 0), (3, 65), (22, 1), (67, 1)] {
        let mut record = record(1, NONE);
        record[place] = octet;
        assert!(fault(&board, &record, 12, &[]).unwrap_err().contains("has to return 5"), "{place}");
    }
}

/// A log with the Active calls 1, restricted and held, and 2, without digits, that goes on so.
fn log(records: &[Vec<u8>]) -> Vec<u8> {
    let mut log = vec![1, 1];
    for (reference, digits) in [(1, b"67" as &[u8]), (2, b"")] {
        log.extend(open(Reference(reference), reference as u32 + 6, 0, 1, digits));
        log.extend(progress(Reference(reference), 10));
    }
    log.extend(hold(Reference(1), 1));
    log.extend(hold(Reference(1), 2));
    log.extend(records.concat());
    log
}

#[test]
fn what_occurs_in_the_logs() {
    let has = |records: &[Vec<u8>], text: &str| {
        assert!(!met(&log(&[])).iter().any(|met| met == text));
        let met = met(&log(records));
        assert!(met.iter().any(|met| met == text), "{text}: {met:?}");
    };
    let transfer = || facility(Reference(1), &execute(ID));
    has(&[record(1, GIVEN)], "Inform of active, mark 1, own number the same and restricted");
    has(&[record(1, GIVEN)], "Inform told, call Held");
    has(&[record(2, GIVEN)], "Inform of active, mark 1, restricted without digits");
    has(&[record(2, RESTRICTED)], "Inform of active, mark 2, own number unknown");
    has(&[record(2, NONE)], "Inform of active, mark 0, own number unknown");
    has(&[record(1, NONE), record(1, NONE)], "Inform told to a party that was told before");
    has(&[record(1, GIVEN), hold(Reference(1), 3)], "Hold of a call whose party was told another number");
    has(&[record(1, GIVEN), release(7)], "Release of a call whose party was told another number");
    has(
        &[record(1, GIVEN), transfer()],
        "transfer of a party that was told another number, its own withheld",
    );
    has(&[record(2, GIVEN), transfer()], "transfer of a party that was told another number, its own unknown");
    has(&[transfer(), record(1, GIVEN)], "9: Inform, reference went by transfer");
    has(&[release(7), record(1, GIVEN)], "9: Inform, call was released");
    has(&[record(7, GIVEN)], "9: Inform, reference is the leg of an Active call");
    has(&[record(0x8001, GIVEN)], "9: Inform, an Active call has the other top bit");
    has(&[record(0, GIVEN)], "5: Inform, all right but reference 0");
    has(
        &[record(1, &[0x30, 6, 0x0A, 1, 0, 0x81, 1, 0])],
        "Inform of alerting, 12: all right but the number, 81 of 1 octet",
    );
    has(&[record(1, &[0x30, 3, 0x0A, 1, 2])], "12: Inform, all right but the indication, 02");
    has(&[record(1, NONE)[..67].to_vec()], "Inform, 3: one octet short");
    has(&[record(1, NONE), vec![0]], "Inform, one octet behind it, then the log ends");
    has(&[facility(Reference(1), &ect_inform(ID, GIVEN))], "Reject invoke 1, EctInform of active");
}

/// A transfer by LinkId after an Inform too.
#[test]
fn explicit_transfer_after() {
    let mut desk = Desk::new(1, 1);
    desk.call(1, 0, 10, 2);
    desk.call(2, 0, 10, 0);
    assert_eq!(desk.link(2), Some(LinkId(0)));
    all_told(&mut desk, 2, 102);
    assert_eq!(desk.ask(1, &explicit_link(ID, LinkId(0))), DONE);
    assert_eq!(refused(&desk.board, &record(2, GIVEN)), 9);
}
