//! The refusals of Leg facilities and Informs in their order: the record, then the leg or the call, then
//! the component.

mod common;

use common::{refused, refused_with, Desk, ID};
use engine::board::{Board, Reference};
use engine::carrier::Carrier;
use engine::records::{execute, inform, leg_facility, link_request, with_argument};

/// Legs 101 and 102 joined, a call of each state with the legs 103 to 106.
fn board() -> Board {
    let mut desk = Desk::joined(true);
    desk.call(3, 0, 10, 2);
    desk.call(4, 0, 3, 0);
    desk.call(5, 0, 4, 2);
    desk.call(6, 1, 7, 0);
    desk.board
}

/// A record with that component for each leg or reference, with what it is refused with if the
/// component is wrong. The calls of joined legs are gone.
fn records(carrier: Carrier, component: &[u8]) -> Vec<(Vec<u8>, u8)> {
    let record = |number: u32| match carrier {
        Carrier::LegFacility => leg_facility(number, component),
        Carrier::Inform => inform(Reference(number as u16), component),
    };
    let numbers = match carrier {
        Carrier::LegFacility => [(101, 12), (102, 12), (103, 11), (105, 11), (3, 10), (0, 10)],
        Carrier::Inform => [(3, 12), (4, 11), (5, 11), (6, 11), (1, 9), (103, 9)],
    };
    numbers.map(|(number, returned)| (record(number), returned)).to_vec()
}

fn right(carrier: Carrier) -> Vec<u8> {
    with_argument(carrier.operation(), ID, carrier.argument())
}

#[test]
fn leg_or_call_then_component() {
    let board = board();
    for carrier in Carrier::BOTH {
        let wrong =
            [vec![0xA1], vec![0xA2], vec![0; 64], execute(ID), link_request(ID), right(carrier.other())];
        for (record, returned) in wrong.iter().flat_map(|component| records(carrier, component)) {
            assert_eq!(refused(&board, &record), returned, "{record:02x?}");
        }
        for (record, returned) in records(carrier, &right(carrier)) {
            if returned != 12 {
                assert_eq!(refused(&board, &record), returned, "{record:02x?}");
            }
        }
    }
}

/// Whatever leg, call and component are.
#[test]
fn count_and_fill_come_first() {
    let board = board();
    for carrier in Carrier::BOTH {
        for component in [right(carrier), vec![0xA1], vec![0xFF; 64]] {
            for (good, _) in records(carrier, &component) {
                for count in [0, 65, 66, 128, 255] {
                    let mut record = good.clone();
                    record[carrier.count_at()] = count;
                    assert_eq!(refused(&board, &record), 5);
                }
                for place in carrier.component_at() + component.len()..carrier.length() {
                    for octet in [1, 0x80] {
                        let mut record = good.clone();
                        record[place] = octet;
                        assert_eq!(refused(&board, &record), 5, "octet {place}");
                    }
                }
            }
        }
    }
}

/// A count that leaves out an octet other than 00 leaves a fill octet; else the component is wrong.
#[test]
fn count_of_another_component() {
    let board = board();
    let arguments: [[&[u8]; 2]; 2] =
        [[&[4, 1, 0x37], &[4, 1, 0]], [&[0x30, 3, 0x0A, 1, 1], &[0x30, 3, 0x0A, 1, 0]]];
    for (carrier, arguments) in Carrier::BOTH.into_iter().zip(arguments) {
        for (argument, returned) in arguments.into_iter().zip([5, 12]) {
            let component = with_argument(carrier.operation(), ID, argument);
            let (mut record, _) = records(carrier, &component).swap_remove(0);
            record[carrier.count_at()] -= 1;
            assert_eq!(refused(&board, &record), returned);
            record[carrier.count_at()] += 2;
            assert_eq!(refused(&board, &record), 12);
        }
    }
}

#[test]
fn length_comes_before_the_fields() {
    let board = board();
    for carrier in Carrier::BOTH {
        for (mut record, _) in records(carrier, &right(carrier)) {
            for count in [0, 16, 65] {
                record[carrier.count_at()] = count;
                for length in [1, 3, 6, 36, carrier.length() - 1] {
                    assert_eq!(refused(&board, &record[..length]), 3);
                }
                assert_eq!(refused(&board, &[record.as_slice(), &[0]].concat()), 3);
                let unknown = [&[10], &record[1..]].concat();
                assert_eq!(refused(&board, &unknown), 4);
            }
        }
    }
}

#[test]
fn buffer_and_board_come_before_all() {
    let mut board = board();
    for unsound in [false, true] {
        for carrier in Carrier::BOTH {
            for (record, _) in records(carrier, &right(carrier)) {
                assert_eq!(refused_with(&board, &record, 127), 1);
                if unsound {
                    assert_eq!(refused(&board, &record), 2);
                }
            }
        }
        board.rows[63].presentation = 1;
    }
}
