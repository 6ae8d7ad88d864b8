//! The refusals, in their order, and that they change nothing.

mod common;

use common::{one_of_each_kind, refused_with as refused, Desk};
use engine::board::{Board, Reference, Row, Standing, RESTRICTED};
use engine::records::{answer, execute, facility, hold, inform, open, progress, release, typed};

fn unsound() -> Board {
    let mut board = Board::empty(1, 1);
    board.rows[63].leg = 1;
    board
}

fn full() -> Desk {
    let mut desk = Desk::new(1, 1);
    for reference in 1..=64 {
        desk.call(reference, 0, 3, 0);
    }
    desk
}

#[test]
fn buffer_comes_first() {
    assert_eq!(refused(&unsound(), &[], 127), 1);
    assert_eq!(refused(&unsound(), &[], 0), 1);
    assert_eq!(refused(&unsound(), &[], 128), 2);
}

#[test]
fn soundness_comes_before_the_record() {
    let sound = Board::empty(1, 1);
    for record in [&[] as &[u8], &[0], &[4], &[4, 0, 0, 0, 0]] {
        assert_eq!(refused(&unsound(), record, 128), 2);
    }
    assert_eq!(refused(&sound, &[], 200), 3);
}

#[test]
fn kind_comes_before_length() {
    let board = Board::empty(1, 1);
    for kind in [0, 10, 0x81, 0x86, 255] {
        assert_eq!(refused(&board, &[kind], 128), 4);
        assert_eq!(refused(&board, &[kind; 25], 128), 4);
    }
    for record in one_of_each_kind() {
        for length in 1..record.len() {
            assert_eq!(refused(&board, &record[..length], 128), 3);
        }
        assert_eq!(refused(&board, &[record.as_slice(), &[0]].concat(), 128), 3);
    }
    // Too long and a field out of range as well.
    assert_eq!(refused(&board, &[2, 0, 0, 9, 9], 128), 3);
}

#[test]
fn fields_of_open() {
    let mut desk = Desk::new(1, 1);
    desk.call(1, 0, 3, 0);
    let good = open(Reference(1), 101, 0, 0, b"12");
    assert_eq!(refused(&desk.board, &good, 128), 6);
    let bad: [(usize, u8); 8] = [(7, 2), (8, 2), (9, 16), (9, 1), (9, 3), (10, b'/'), (11, b':'), (12, b'0')];
    for (place, octet) in bad {
        let mut record = good.clone();
        record[place] = octet;
        assert_eq!(refused(&desk.board, &record, 128), 5, "octet {place}");
    }
    for reference in [0, 0x8000] {
        assert_eq!(refused(&desk.board, &open(Reference(reference), 101, 0, 0, b""), 128), 5);
    }
}

#[test]
fn fields_of_open_with_a_type() {
    let mut desk = Desk::new(1, 1);
    desk.call(1, 0, 3, 0);
    for number_type in 0..=2 {
        let good = typed(open(Reference(1), 101, 0, 0, b"12"), number_type);
        assert_eq!(refused(&desk.board, &good, 128), 6);
        let bad: [(usize, u8); 8] =
            [(7, 2), (8, 2), (10, 16), (10, 1), (10, 3), (11, b'/'), (12, b':'), (13, b'0')];
        for (place, octet) in bad {
            let mut record = good.clone();
            record[place] = octet;
            assert_eq!(refused(&desk.board, &record, 128), 5, "octet {place}");
        }
        for reference in [0, 0x8000] {
            let record = typed(open(Reference(reference), 101, 0, 0, b""), number_type);
            assert_eq!(refused(&desk.board, &record, 128), 5);
        }
    }
    for number_type in 3..=255 {
        for (leg, digits) in [(101, b"12".as_slice()), (9, b"12"), (9, b"")] {
            let record = typed(open(Reference(1), leg, 0, 0, digits), number_type);
            assert_eq!(refused(&desk.board, &record, 128), 5);
        }
    }
}

#[test]
fn fields_of_the_others() {
    let board = Board::empty(1, 1);
    for state in (0..=255).filter(|state| ![4, 10].contains(state)) {
        assert_eq!(refused(&board, &progress(Reference(1), state), 128), 5);
    }
    for aux in 4..=255 {
        assert_eq!(refused(&board, &hold(Reference(1), aux), 128), 5);
    }
    for reference in [0, 0x8000] {
        assert_eq!(refused(&board, &progress(Reference(reference), 4), 128), 5);
        assert_eq!(refused(&board, &hold(Reference(reference), 1), 128), 5);
        assert_eq!(refused(&board, &facility(Reference(reference), &[0xA2]), 128), 5);
        assert_eq!(refused(&board, &inform(Reference(reference), &[0xA1]), 128), 5);
    }
    for count in [0, 33, 255] {
        let mut record = facility(Reference(1), &[0xA2]);
        record[3] = count;
        assert_eq!(refused(&board, &record, 128), 5);
    }
    for place in 5..36 {
        let mut record = facility(Reference(1), &[0xA2]);
        record[place] = 1;
        assert_eq!(refused(&board, &record, 128), 5);
    }
}

#[test]
fn leg_then_reference_then_room() {
    let desk = full();
    assert_eq!(refused(&desk.board, &open(Reference(1), 101, 0, 0, b""), 128), 6);
    assert_eq!(refused(&desk.board, &open(Reference(1), 9, 0, 0, b""), 128), 7);
    assert_eq!(refused(&desk.board, &open(Reference(99), 101, 0, 0, b""), 128), 6);
    assert_eq!(refused(&desk.board, &open(Reference(99), 9, 0, 0, b""), 128), 8);
    for (reference, leg, returned) in [(1, 101, 6), (1, 9, 7), (99, 101, 6), (99, 9, 8)] {
        let record = typed(open(Reference(reference), leg, 0, 0, b""), 1);
        assert_eq!(refused(&desk.board, &record, 128), returned);
    }
    // The top bit makes another reference.
    assert_eq!(refused(&desk.board, &open(Reference(0x8001), 9, 0, 0, b""), 128), 8);
}

#[test]
fn legs_of_joined_rows_are_taken_and_references_free() {
    let mut desk = Desk::new(1, 1);
    desk.call(1, 0, 10, 2);
    desk.call(2, 0, 10, 0);
    desk.ok(&facility(Reference(1), &execute(common::ID)));
    assert_eq!(refused(&desk.board, &open(Reference(3), 102, 0, 0, b""), 128), 6);
    assert_eq!(refused(&desk.board, &progress(Reference(1), 10), 128), 9);
    desk.ok(&open(Reference(1), 7, 0, RESTRICTED, b""));
}

#[test]
fn absent_calls_and_legs() {
    let mut desk = Desk::new(1, 1);
    desk.call(1, 0, 3, 0);
    assert_eq!(refused(&desk.board, &progress(Reference(2), 4), 128), 9);
    assert_eq!(refused(&desk.board, &hold(Reference(2), 0), 128), 9);
    assert_eq!(refused(&desk.board, &facility(Reference(0x8001), &[0xA2]), 128), 9);
    assert_eq!(refused(&desk.board, &release(1), 128), 10);
    assert_eq!(refused(&desk.board, &answer(1), 128), 10);
    assert_eq!(refused(&desk.board, &release(0), 128), 10);
}

#[test]
fn progress_steps() {
    for (direction, state) in [(0, 3), (0, 4), (0, 10), (1, 7), (1, 10)] {
        for goal in [4, 10] {
            let mut desk = Desk::new(1, 1);
            desk.call(1, direction, state, 0);
            let permitted = matches!((state, goal), (3, 4) | (3, 10) | (4, 10) | (7, 10));
            let (returned, octets) = desk.play(&progress(Reference(1), goal));
            assert_eq!(returned, if permitted { 0 } else { 11 });
            assert!(octets.is_empty());
            let now = desk.find(1).unwrap().state as u8;
            assert_eq!(now, if permitted { goal } else { state });
        }
    }
}

#[test]
fn hold_steps() {
    for (direction, state) in [(0, 3), (0, 4), (0, 10), (1, 7), (1, 10)] {
        for aux in if [4, 10].contains(&state) { 0..=3 } else { 0..=0 } {
            for goal in 0..=3 {
                let mut desk = Desk::new(1, 1);
                desk.call(1, direction, state, aux);
                let step = matches!((aux, goal), (0, 1) | (1, 2) | (1, 0) | (2, 3) | (3, 0) | (3, 2));
                let permitted = step && [4, 10].contains(&state);
                assert_eq!(desk.play(&hold(Reference(1), goal)).0, if permitted { 0 } else { 11 });
                assert_eq!(desk.find(1).unwrap().aux as u8, if permitted { goal } else { aux });
            }
        }
    }
}

#[test]
fn answer_of_what_does_not_alert() {
    let mut desk = Desk::new(1, 1);
    desk.call(1, 0, 10, 2);
    desk.call(2, 0, 4, 0);
    assert_eq!(refused(&desk.board, &answer(102), 128), 11);
    desk.ok(&facility(Reference(1), &execute(common::ID)));
    assert_eq!(refused(&desk.board, &answer(101), 128), 11);
    desk.ok(&answer(102));
    assert_eq!(refused(&desk.board, &answer(102), 128), 11);
}

#[test]
fn open_takes_the_lowest_empty_row() {
    let mut desk = full();
    desk.ok(&release(140));
    desk.ok(&release(120));
    desk.ok(&open(Reference(500), 0, 1, 0, b""));
    assert_eq!(desk.board.rows[19].leg, 0);
    assert_ne!(desk.board.rows[19].standing, Standing::Empty);
    assert_eq!(desk.board.rows[39], Row::EMPTY);
}
