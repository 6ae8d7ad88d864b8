//! The listed situations of Informs, each by its own test.

mod common;

use common::{tell, Desk, ID};
use engine::board::Reference;
use engine::records::{ect_inform, element, inform, open, progress};

const TWENTY_FOUR: [u8; 24] = [
    0xA1, 0x16, 0x02, 0x01, 0x05, 0x06, 0x06, 0x04, 0x00, 0x82, 0x71, 0x01, 0x05, 0x30, 0x09, 0x0A, 0x01,
    0x01, 0xA0, 0x04, 0x80, 0x02, 0x32, 0x31,
];

/// Leg 7 with an Active call of reference 1.
fn seven(presentation: u8, digits: &[u8]) -> Desk {
    let mut desk = Desk::new(1, 1);
    desk.ok(&open(Reference(1), 7, 0, presentation, digits));
    desk.ok(&progress(Reference(1), 10));
    desk
}

/// Whatever the row of leg 7 says of its own party.
fn each_seven() -> Vec<Desk> {
    let numbers: [&[u8]; 4] = [b"", b"21", b"5", b"123456789012345"];
    numbers.iter().flat_map(|digits| [0, 1].map(|presentation| seven(presentation, digits))).collect()
}

#[test]
fn active_with_two_digits() {
    for mut desk in each_seven() {
        let record = [&[8, 0, 1, 24], &TWENTY_FOUR[..], &[0; 40]].concat();
        let written = [&[0x82, 0, 0, 0, 7, 0x00, 0xEA, 1, 1, 2, 0x32, 0x31], &[0; 13][..]].concat();
        assert_eq!(desk.play(&record), (0, written));
    }
}

#[test]
fn the_same_with_alerting() {
    for mut desk in each_seven() {
        let mut component = TWENTY_FOUR;
        component[17] = 0;
        let written = [&[0x82, 0, 0, 0, 7, 0x01, 0xE9, 0, 0, 0], &[0; 15][..]].concat();
        assert_eq!(desk.play(&inform(Reference(1), &component)), (0, written));
    }
}

#[test]
fn active_restricted_or_without_number() {
    for mut desk in each_seven() {
        let component = ect_inform(ID, &[0x30, 5, 0x0A, 1, 1, 0x81, 0]);
        assert_eq!(desk.ok(&inform(Reference(1), &component)), tell(7, 0, 0xEA, 2, 1, b""));
        let component = ect_inform(ID, &[0x30, 3, 0x0A, 1, 1]);
        assert_eq!(desk.ok(&inform(Reference(1), &component)), tell(7, 0, 0xEA, 0, 1, b""));
    }
}

/// An invoke with that indication and these digits.
fn digits(active: u8, digits: &[u8]) -> Vec<u8> {
    let number = element(0xA0, &element(0x80, digits));
    ect_inform(ID, &element(0x30, &[&[0x0A, 1, active], &number[..]].concat()))
}

#[test]
fn fifteen_digits() {
    let fifteen = b"123456789012345";
    let record = inform(Reference(1), &digits(1, fifteen));
    assert_eq!(seven(1, b"9").play(&record), (0, tell(7, 0, 0xEA, 1, 1, fifteen)));
}

#[test]
fn sixteen_digits_or_none_or_a_letter() {
    let wrong: [&[u8]; 5] = [b"1234567890123456", b"", b"A", b"12345678901234A", b"a2345"];
    for component in wrong.iter().flat_map(|octets| [digits(0, octets), digits(1, octets)]) {
        assert_eq!(seven(0, b"9").play(&inform(Reference(1), &component)), (12, vec![]));
    }
}

#[test]
fn calls_that_are_delivered_or_not_there() {
    let mut desk = seven(0, b"");
    desk.call(2, 0, 4, 0);
    for component in [TWENTY_FOUR.to_vec(), digits(1, b""), vec![0xA2], vec![0x00], vec![0xFF; 64]] {
        assert_eq!(desk.play(&inform(Reference(2), &component)), (11, vec![]));
        assert_eq!(desk.play(&inform(Reference(3), &component)), (9, vec![]));
    }
}
