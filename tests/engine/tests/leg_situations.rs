//! The listed situations of Leg facilities, each by its own test.

mod common;

use common::{pass_on, Desk, ID};
use engine::records::{element, leg_facility, open, progress, subaddress_transfer};
use engine::{board::Reference, records};

/// An invoke with a subaddress of so many octets.
fn octets(count: usize) -> Vec<u8> {
    subaddress_transfer(ID, &element(4, &vec![0x41; count]))
}

#[test]
fn subaddress_of_20_octets() {
    for alerts in [false, true] {
        for (leg, partner) in [(101, 102), (102, 101)] {
            let mut desk = Desk::joined(alerts);
            assert_eq!(desk.ok(&leg_facility(leg, &octets(20))), pass_on(partner, &octets(20)));
        }
    }
}

#[test]
fn subaddress_of_21_octets_or_of_none() {
    for alerts in [false, true] {
        for count in [0, 21] {
            for leg in [101, 102] {
                let mut desk = Desk::joined(alerts);
                assert_eq!(desk.play(&leg_facility(leg, &octets(count))), (12, vec![]));
            }
        }
    }
}

/// Legs 7 and 8, joined.
fn seven_and_eight() -> Desk {
    let mut desk = Desk::new(1, 1);
    for (reference, leg) in [(1, 7), (2, 8)] {
        desk.ok(&open(Reference(reference), leg, 0, 0, b""));
        desk.ok(&progress(Reference(reference), 10));
    }
    for aux in [1, 2] {
        desk.ok(&records::hold(Reference(1), aux));
    }
    desk.ask(1, &records::execute(ID));
    desk
}

const SIXTEEN: [u8; 16] =
    [0xA1, 0x0E, 0x02, 0x01, 0x05, 0x06, 0x06, 0x04, 0x00, 0x82, 0x71, 0x01, 0x03, 0x04, 0x01, 0x37];

#[test]
fn sixteen_octets_from_leg_7_to_leg_8() {
    let record = [&[7, 0, 0, 0, 7, 0x10], &SIXTEEN[..], &[0; 48]].concat();
    let written = [&[0x85, 0, 0, 0, 8, 0x10], &SIXTEEN[..], &[0; 48]].concat();
    assert_eq!(written.len(), 70);
    assert_eq!(seven_and_eight().play(&record), (0, written));
}

#[test]
fn the_same_with_null_behind() {
    let mut component = [&SIXTEEN[..], &[0x05, 0x00]].concat();
    component[1] = 0x10;
    let record = [&[7, 0, 0, 0, 7, 0x12], &component[..], &[0; 46]].concat();
    assert_eq!(seven_and_eight().play(&record), (12, vec![]));
}

#[test]
fn legs_with_the_served_user_or_not_on_the_board() {
    let mut desk = seven_and_eight();
    desk.call(3, 1, 10, 0);
    for component in [SIXTEEN.to_vec(), octets(21), vec![0xA2], vec![0x00], vec![0xFF; 64]] {
        assert_eq!(desk.play(&leg_facility(103, &component)), (11, vec![]));
        assert_eq!(desk.play(&leg_facility(9, &component)), (10, vec![]));
    }
}
