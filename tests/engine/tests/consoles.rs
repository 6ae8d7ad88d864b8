//! What the old console sees, and Tells that are at fault.

mod common;

use common::{dropped, met, reply, tell, tell_typed, two_idle, Desk, DONE, ID};
use engine::board::{Board, Reference};
use engine::console::{seen, stands};
use engine::event::event;
use engine::notice::Moment;
use engine::records::{
    answer, element, execute, explicit_link, facility, hold, inform, open, progress, typed,
};

#[test]
fn records_as_far_as_the_first_0x86() {
    let (reply, drops) = (reply(1, DONE), dropped(1, 2));
    let (old, new) = (tell(7, 0, 0xEA, 1, 1, b"34"), tell_typed(8, 1, b"21", 1));
    let octets = [&reply, &drops, &old, &new, &old].map(|part| part.as_slice()).concat();
    assert_eq!(seen(&octets), [&reply[..], &drops[..3], &drops[3..], &old]);
    assert_eq!(seen(&[new.clone(), old.clone()].concat()), [&[] as &[u8]; 0]);
    assert_eq!(seen(&[old.clone(), vec![0x84, 0, 0, 0, 8], new].concat()), [&old[..], &[0x84, 0, 0, 0, 8]]);
    assert_eq!(seen(&[0x85; 70]), [&[0x85; 70][..]]);
    assert_eq!(seen(&[]), [&[] as &[u8]; 0]);
}

/// What a wrong program would have written at an event is at fault; what was written is not.
fn judged(before: &Board, record: &[u8], wrong: &[u8]) -> Result<(), String> {
    let (mut after, mut buffer) = (before.clone(), [0; 128]);
    let done = event(&mut after, record, &mut buffer);
    let judge =
        |written: &[u8]| stands(&Moment { before, after: &after, record, returned: done.returned, written });
    assert_eq!(judge(&buffer[..done.written]), Ok(()));
    judge(wrong)
}

/// Calls of legs 7 and 9, the first held, whose numbers 21 and 34 have these types.
fn held(alerting: u8, state: u8, presentation: u8, types: [u8; 2]) -> Board {
    let mut desk = two_idle(alerting, state, [(0, b"21"), (presentation, b"34")]);
    desk.ok(&hold(Reference(1), 1));
    desk.ok(&hold(Reference(1), 2));
    for (row, number_type) in desk.board.rows.iter_mut().zip(types) {
        row.number_type = number_type;
    }
    desk.board
}

/// A transfer whose Tells are these.
fn with(tells: [Vec<u8>; 2]) -> Vec<u8> {
    [reply(1, DONE), dropped(1, 2), tells.concat()].concat()
}

#[test]
fn wrong_tells_are_faults() {
    let old = |leg, digits: &[u8]| tell(leg, 0, 0xEA, 1, 1, digits);
    let new = |leg, number_type, digits: &[u8]| tell_typed(leg, number_type, digits, 1);
    let board = held(1, 10, 0, [1, 0]);
    let wrongs = [
        // The type lost, another, of the wrong row, or 0 and told.
        [old(7, b"34"), old(9, b"21")],
        [old(7, b"34"), new(9, 2, b"21")],
        [new(7, 1, b"34"), old(9, b"21")],
        [new(7, 0, b"34"), new(9, 1, b"21")],
        // Other digits, or none.
        [old(7, b"34"), new(9, 1, b"34")],
        [tell(7, 0, 0xEA, 0, 1, b""), new(9, 1, b"21")],
        [old(7, b"34"), new(9, 1, b"21")[..25].to_vec()],
    ];
    for wrong in wrongs {
        assert!(judged(&board, &facility(Reference(1), &execute(ID)), &with(wrong)).is_err());
    }
    let withheld = held(1, 10, 1, [0, 2]);
    let mut told = new(7, 2, b"");
    told[7] = 2;
    for wrong in [[told, old(9, b"21")], [new(7, 2, b"34"), old(9, b"21")]] {
        assert!(judged(&withheld, &facility(Reference(1), &execute(ID)), &with(wrong)).is_err());
    }
}

#[test]
fn an_inform_with_a_type_is_a_fault() {
    let board = held(0, 10, 0, [2, 2]);
    let argument = element(0x30, &[0x0A, 1, 1, 0xA0, 3, 0x80, 1, b'9']);
    let record = inform(Reference(1), &engine::records::ect_inform(ID, &argument));
    assert!(judged(&board, &record, &tell_typed(7, 2, b"9", 1)).is_err());
    assert!(judged(&board, &record, &tell_typed(7, 0, b"9", 1)).is_err());
}

#[test]
fn what_occurs_in_the_logs() {
    let log = |types: [u8; 2], state| {
        let mut log = vec![1, 1];
        for (reference, number_type) in [1, 2].into_iter().zip(types) {
            let record = open(Reference(reference), 100 + reference as u32, 0, 0, b"12");
            log.extend(typed(record, number_type));
            log.extend(progress(Reference(reference), if reference == 1 { 10 } else { state }));
        }
        log.extend([hold(Reference(1), 1), hold(Reference(1), 2)].concat());
        log.extend(facility(Reference(1), &execute(ID)));
        log
    };
    let has = |log: &[u8], text: &str| assert!(met(log).iter().any(|met| met == text), "{text}");
    has(&log([0, 0], 10), "European: old console sees all records, one with a number");
    has(&log([1, 0], 10), "European: old console sees a number, then 0x86");
    has(&log([0, 1], 10), "European: number of type 0 behind a 0x86");
    has(&log([0, 1], 10), "European: old console sees Reply and Drops alone");
    has(&log([2, 1], 10), "European: two 0x86");
    has(&log([2, 1], 10), "European: EctExecute transfer, both Active, numbers given, types 2 and 1");
    has(&log([1, 2], 4), "European: EctExecute transfer, no number sent, alerting party's of type 2");
    has(&log([1, 2], 4), "European: EctExecute transfer, one alerting, the Active party's of type 1");
    let answered = [log([1, 2], 4), answer(102)].concat();
    has(&answered, "European: old console sees nothing, 0x86 first");
    has(&answered, "European: Answer, both numbers given, type 2, partner's 1");
}

/// By American rules an Answer writes two Tells, each of its own kind.
#[test]
fn american_answers() {
    for (own, partners) in [(0, 0), (0, 1), (2, 0), (1, 2)] {
        let mut desk = Desk::new(1, 3);
        for (reference, number_type, state) in [(1, partners, 10), (2, own, 4)] {
            desk.ok(&typed(open(Reference(reference), 6 + reference as u32, 0, 0, b"5"), number_type));
            desk.ok(&progress(Reference(reference), state));
        }
        let link = desk.link(2).unwrap();
        desk.ok(&facility(Reference(1), &explicit_link(ID, link)));
        let told = |leg, number_type| match number_type {
            0 => tell(leg, 0, 0xEA, 1, 0, b"5"),
            _ => tell_typed(leg, number_type, b"5", 0),
        };
        assert_eq!(desk.ok(&answer(8)), [told(7, own), told(8, partners)].concat());
    }
}
