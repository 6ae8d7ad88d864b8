//! The listed situations of the type of number, each by its own test.

mod common;

use common::{tell, Desk, DONE};
use engine::board::{Reference, Row};
use engine::records::{answer, inform, progress};

/// Reference 1, leg 7, incoming, shown, digits 21; of kind 9 with that type.
fn kind_9(number_type: u8) -> Vec<u8> {
    [&[9, 0, 1, 0, 0, 0, 7, 1, 0, number_type, 2, 0x32, 0x31], &[0; 13][..]].concat()
}

#[test]
fn kind_9_with_type_0_and_kind_1() {
    let kind_1 = [&[1, 0, 1, 0, 0, 0, 7, 1, 0, 2, 0x32, 0x31], &[0; 13][..]].concat();
    assert_eq!((kind_1.len(), kind_9(0).len()), (25, 26));
    let (mut one, mut other) = (Desk::new(1, 1), Desk::new(1, 1));
    assert_eq!(one.play(&kind_1), (0, vec![]));
    assert_eq!(other.play(&kind_9(0)), (0, vec![]));
    assert_eq!(one.board, other.board);
    assert_eq!(one.board.rows[0].number_type, 0);
}

#[test]
fn type_3_and_type_2_without_digits() {
    let mut desk = Desk::new(1, 1);
    assert_eq!(desk.play(&kind_9(3)), (5, vec![]));
    assert_eq!(desk.board.rows[0], Row::EMPTY);
    let record = [&[9, 0, 1, 0, 0, 0, 7, 0, 0, 2], &[0; 16][..]].concat();
    assert_eq!(desk.play(&record), (0, vec![]));
    assert_eq!((desk.board.rows[0].leg, desk.board.rows[0].number_type), (7, 2));
}

/// Two Active calls, the first held: legs 7 and 8 with these presentations, types and digits.
fn seven_and_eight(numbers: [(u8, u8, &[u8]); 2]) -> Desk {
    let mut desk = Desk::new(1, 0);
    for (place, (presentation, number_type, digits)) in (1u8..).zip(numbers) {
        let mut record = vec![9, 0, place, 0, 0, 0, 6 + place, 0, presentation, number_type];
        record.push(digits.len() as u8);
        record.extend(digits);
        record.resize(26, 0);
        desk.ok(&record);
        desk.ok(&progress(Reference(place as u16), 10));
    }
    desk.ok(&[3, 0, 1, 1]);
    desk.ok(&[3, 0, 1, 2]);
    desk
}

/// EctExecute on reference 1.
fn execute() -> Vec<u8> {
    [&[5, 0, 1, 8, 0xA1, 6, 2, 1, 5, 2, 1, 6], &[0; 24][..]].concat()
}

/// The result of the transfer, and the two Drops.
fn front() -> Vec<u8> {
    let reply = [&[0x81, 0, 1, 5], DONE, &[0; 27]].concat();
    [reply, vec![0x83, 0, 1, 0x83, 0, 2]].concat()
}

#[test]
fn types_1_and_0() {
    let mut desk = seven_and_eight([(0, 1, b"21"), (0, 0, b"34")]);
    let octets = desk.ok(&execute());
    let to_7 = [&[0x82, 0, 0, 0, 7, 0, 0xEA, 1, 1, 2, 0x33, 0x34], &[0; 13][..]].concat();
    let to_8 = [&[0x86, 0, 0, 0, 8, 0, 0xEA, 1, 1, 1, 2, 0x32, 0x31], &[0; 13][..]].concat();
    assert_eq!(octets, [front(), to_7, to_8].concat());
    assert_eq!(octets.len(), 36 + 3 + 3 + 25 + 26);
    assert_eq!([0, 1].map(|place| desk.board.rows[place].number_type), [1, 0]);
}

#[test]
fn both_of_type_1_or_2() {
    for (first, second) in [(1, 1), (1, 2), (2, 1), (2, 2)] {
        let octets = seven_and_eight([(0, first, b"21"), (0, second, b"3")]).ok(&execute());
        let to_7 = [&[0x86, 0, 0, 0, 7, 0, 0xEA, 1, 1, second, 1, 0x33], &[0; 14][..]].concat();
        let to_8 = [&[0x86, 0, 0, 0, 8, 0, 0xEA, 1, 1, first, 2, 0x32, 0x31], &[0; 13][..]].concat();
        assert_eq!(octets, [front(), to_7, to_8].concat());
        assert_eq!(octets.len(), 94);
    }
}

#[test]
fn restricted_or_without_digits_and_of_type_2() {
    let octets = seven_and_eight([(1, 2, b"21"), (0, 2, b"")]).ok(&execute());
    let to_7 = [&[0x82, 0, 0, 0, 7, 0, 0xEA, 0, 1, 0], &[0; 15][..]].concat();
    let to_8 = [&[0x82, 0, 0, 0, 8, 0, 0xEA, 2, 1, 0], &[0; 15][..]].concat();
    assert_eq!(octets, [front(), to_7, to_8].concat());
    assert_eq!(octets.len(), 92);
}

#[test]
fn inform_on_the_call_of_a_row_of_type_1() {
    let component = [
        0xA1, 0x16, 0x02, 0x01, 0x05, 0x06, 0x06, 0x04, 0x00, 0x82, 0x71, 0x01, 0x05, 0x30, 0x09, 0x0A, 0x01,
        0x01, 0xA0, 0x04, 0x80, 0x02, 0x32, 0x31,
    ];
    for number_type in [0, 1, 2] {
        for digits in [b"21".as_slice(), b"21345", b""] {
            let mut desk = seven_and_eight([(0, number_type, digits), (0, 1, b"9")]);
            let octets = desk.ok(&inform(Reference(1), &component));
            assert_eq!(octets, [&[0x82, 0, 0, 0, 7, 0, 0xEA, 1, 1, 2, 0x32, 0x31], &[0; 13][..]].concat());
        }
    }
}

/// The answering party's number is told with its type, which the transfer has kept.
#[test]
fn answer_of_a_party_of_type_2() {
    let mut desk = Desk::new(1, 1);
    desk.ok(&kind_9(1));
    desk.ok(&progress(Reference(1), 10));
    desk.ok(&[&[9, 0, 2, 0, 0, 0, 8, 0, 0, 2, 1, 0x33], &[0; 14][..]].concat());
    desk.ok(&progress(Reference(2), 4));
    desk.ok(&[3, 0, 1, 1]);
    desk.ok(&[3, 0, 1, 2]);
    let to_8 = [&[0x86, 0, 0, 0, 8, 1, 0xEA, 1, 0, 1, 2, 0x32, 0x31], &[0; 13][..]].concat();
    assert_eq!(desk.ok(&execute()), [front(), tell(7, 0, 0xE9, 0, 1, b""), to_8].concat());
    let to_7 = [&[0x86, 0, 0, 0, 7, 0, 0xEA, 1, 0, 2, 1, 0x33], &[0; 14][..]].concat();
    assert_eq!(desk.ok(&answer(8)), to_7);
}
