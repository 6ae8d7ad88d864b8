//! The listed situations, each by its own test.

mod common;

use common::{dropped, error, reply, tell, Desk, DONE, ID, NOT_ASSIGNED};
use engine::board::{Aux, Board, Call, CallState, LinkId, Reference};
use engine::component::{Operation, LINK_REQUEST};
use engine::event::event;
use engine::invoke::{Invoke, InvokeId};
use engine::records;
use engine::rows::count;
use engine::rules::RuleSet;
use engine::serve::verdict;

fn state(state: CallState, aux: Aux) -> Call {
    Call { reference: Reference(1), direction: 0, state, aux, link: None }
}

#[test]
fn pair_verdicts() {
    use Aux::{Held, HoldRequest, Idle, RetrieveRequest};
    use CallState::{Active, Delivered, Proceeding};
    let both = |a: Call, b: Call| {
        let of = |a: &Call, b: &Call| verdict(RuleSet::European, a, b);
        assert_eq!(of(&a, &b), of(&b, &a));
        of(&a, &b)
    };
    assert_eq!(both(state(Active, Held), state(Active, Idle)), 1);
    assert_eq!(both(state(Active, Held), state(Active, Held)), 0);
    assert_eq!(both(state(Active, Idle), state(Active, Idle)), 0);
    assert_eq!(both(state(Active, Held), state(Delivered, Idle)), 2);
    assert_eq!(both(state(Active, Idle), state(Delivered, Held)), 2);
    assert_eq!(both(state(Active, HoldRequest), state(Active, Idle)), 0);
    assert_eq!(both(state(Active, RetrieveRequest), state(Active, Idle)), 0);
    assert_eq!(both(state(Delivered, Held), state(Delivered, Idle)), 0);
    assert_eq!(both(state(Active, Held), state(Proceeding, Idle)), 0);
    let incoming = Call { direction: 1, ..state(Active, Idle) };
    assert_eq!(both(state(Active, Held), incoming), 1);
}

/// The LinkId element of the result when the candidate has that value.
fn link_octets(value: i16) -> Vec<u8> {
    let mut desk = Desk::new(1, 0);
    desk.call(1, 0, 3, 0);
    desk.board.candidate = LinkId(value);
    let component = desk.ask(1, &records::link_request(ID));
    assert_eq!(component[0], 0xA2);
    assert_eq!(component[2..5], [2, 1, 5]);
    assert_eq!(component[5], 0x30);
    assert_eq!(component[7..15], records::object(LINK_REQUEST));
    assert_eq!(component[1] as usize, component.len() - 2);
    assert_eq!(component[6] as usize, component.len() - 7);
    component[15..].to_vec()
}

#[test]
fn link_id_octets() {
    assert_eq!(link_octets(127), [0x02, 0x01, 0x7F]);
    assert_eq!(link_octets(128), [0x02, 0x02, 0x00, 0x80]);
    assert_eq!(link_octets(-128), [0x02, 0x01, 0x80]);
    assert_eq!(link_octets(-129), [0x02, 0x02, 0xFF, 0x7F]);
    assert_eq!(link_octets(0), [0x02, 0x01, 0x00]);
    assert_eq!(link_octets(-1), [0x02, 0x01, 0xFF]);
    assert_eq!(link_octets(32767), [0x02, 0x02, 0x7F, 0xFF]);
    assert_eq!(link_octets(-32768), [0x02, 0x02, 0x80, 0x00]);
}

/// The element of that invoke identifier as it is written.
fn identifier_octets(value: i16) -> Vec<u8> {
    let mut buffer = [0; 32];
    let invoke = Invoke { identifier: InvokeId(value), operation: Operation::LinkRequest };
    let count = invoke.write(&mut buffer).unwrap();
    assert_eq!(buffer[..2], [0xA1, count as u8 - 2]);
    assert_eq!(buffer[count - 8..count], records::object(LINK_REQUEST));
    buffer[2..count - 8].to_vec()
}

#[test]
fn invoke_identifier_octets() {
    assert_eq!(identifier_octets(-129), [0x02, 0x02, 0xFF, 0x7F]);
    assert_eq!(identifier_octets(-128), [0x02, 0x01, 0x80]);
    assert_eq!(identifier_octets(-1), [0x02, 0x01, 0xFF]);
    assert_eq!(identifier_octets(0), [0x02, 0x01, 0x00]);
    assert_eq!(identifier_octets(127), [0x02, 0x01, 0x7F]);
    assert_eq!(identifier_octets(128), [0x02, 0x02, 0x00, 0x80]);
}

/// The answers to an integer as identifier of an EctExecute, as operation and as LinkId. Each of four LinkIds
/// names a call that pairs with call 1; an EctExecute, with so many, gets error 7.
fn integer_answers(integer: &[u8]) -> [Vec<u8>; 3] {
    let mut desk = Desk::new(1, 1);
    desk.call(1, 0, 10, 2);
    for (reference, link) in [(2, 5), (3, -128), (4, 128), (5, -129)] {
        desk.call(reference, 0, 10, 0);
        desk.board.candidate = LinkId(link);
        assert_eq!(desk.link(reference), Some(LinkId(link)));
    }
    let operation = records::invoke(&[ID, integer]);
    [records::execute(integer), operation, records::explicit(ID, integer)]
        .map(|component| desk.ok(&records::facility(Reference(1), &component)))
}

#[test]
fn padded_integers_and_those_next_to_them() {
    for integer in [[0x02, 0x02, 0x00, 0x05], [0x02, 0x02, 0xFF, 0x80]] {
        let expected = [
            reply(1, &[0xA4, 0x05, 0x05, 0x00, 0x80, 0x01, 0x01]),
            reply(1, &[0xA4, 0x06, 0x02, 0x01, 0x05, 0x80, 0x01, 0x01]),
            reply(1, &[0xA4, 0x06, 0x02, 0x01, 0x05, 0x81, 0x01, 0x02]),
        ];
        assert_eq!(integer_answers(&integer), expected, "{integer:02x?}");
    }
    for (integer, partner) in [([0x02, 0x02, 0x00, 0x80], 4), ([0x02, 0x02, 0xFF, 0x7F], 5)] {
        let [_, _, high, low] = integer;
        let (leg, digits) = (100 + partner as u32, format!("{partner:03}"));
        let tells = [tell(101, 0, 0xEA, 1, 1, digits.as_bytes()), tell(leg, 0, 0xEA, 1, 1, b"001")];
        let expected = [
            reply(1, &[0xA3, 0x07, 0x02, 0x02, high, low, 0x02, 0x01, 0x07]),
            reply(1, &[0xA4, 0x06, 0x02, 0x01, 0x05, 0x81, 0x01, 0x01]),
            [reply(1, DONE), dropped(1, partner), tells.concat()].concat(),
        ];
        assert_eq!(integer_answers(&integer), expected, "{integer:02x?}");
    }
}

#[test]
fn link_ids_128_and_minus_129_not_live() {
    let mut desk = Desk::new(1, 1);
    desk.call(1, 0, 10, 2);
    for link in [[0x02, 0x02, 0x00, 0x80], [0x02, 0x02, 0xFF, 0x7F]] {
        assert_eq!(desk.ask(1, &records::explicit(ID, &link)), NOT_ASSIGNED);
    }
}

#[test]
fn candidate_goes_from_highest_to_lowest() {
    let mut desk = Desk::new(1, 0);
    desk.call(1, 0, 3, 0);
    desk.call(2, 1, 7, 0);
    desk.board.candidate = LinkId(32767);
    assert_eq!(desk.link(1), Some(LinkId(32767)));
    assert_eq!(desk.link(2), Some(LinkId(-32768)));
    assert_eq!(desk.board.candidate, LinkId(-32767));
}

#[test]
fn live_values_are_passed_over() {
    let mut desk = Desk::new(1, 0);
    for reference in 1..=4 {
        desk.call(reference, 0, 3, 0);
    }
    desk.board.candidate = LinkId(32766);
    assert_eq!(desk.link(1), Some(LinkId(32766)));
    assert_eq!(desk.link(2), Some(LinkId(32767)));
    assert_eq!(desk.link(3), Some(LinkId(-32768)));
    desk.board.candidate = LinkId(32766);
    assert_eq!(desk.link(4), Some(LinkId(-32767)));
    assert_eq!(desk.board.candidate, LinkId(-32766));
}

#[test]
fn sixteen_live() {
    let mut desk = Desk::new(1, 0);
    for reference in 1..=17 {
        desk.call(reference, 0, 3, 0);
    }
    for reference in 1..=16 {
        assert_eq!(desk.link(reference), Some(LinkId(reference as i16 - 1)));
    }
    let before = desk.board.clone();
    assert_eq!(desk.ask(17, &records::link_request(ID)), error(11));
    assert_eq!(desk.board, before);
    let again = desk.ask(9, &records::link_request(ID));
    assert_eq!(again[15..], [2, 1, 8]);
    assert_eq!(desk.board, before);
}

#[test]
fn explicit_with_own_link_id() {
    let mut desk = Desk::new(1, 1);
    desk.call(1, 0, 10, 2);
    desk.call(2, 0, 10, 0);
    let link = desk.link(1).unwrap();
    assert_eq!(desk.ask(1, &records::explicit_link(ID, link)), error(7));
    assert_eq!(desk.ask(2, &records::explicit_link(ID, link)), DONE);
}

#[test]
fn unsubscribed_comes_before_the_link_id() {
    let mut desk = Desk::new(0, 1);
    desk.call(1, 0, 10, 2);
    assert_eq!(desk.ask(1, &records::explicit_link(ID, LinkId(9))), error(0));
    assert_eq!(desk.ask(1, &records::execute(ID)), error(0));
    assert_eq!(desk.ask(1, &records::link_request(ID)), error(0));
    assert_eq!(desk.ask(1, &records::explicit(ID, &[])), [0xA4, 6, 2, 1, 5, 0x81, 1, 2]);
}

#[test]
fn link_id_not_live() {
    let mut desk = Desk::new(1, 1);
    desk.call(1, 0, 10, 2);
    assert_eq!(desk.ask(1, &records::explicit_link(ID, LinkId(0))), NOT_ASSIGNED);
    assert_eq!(desk.ask(1, &records::explicit_link(ID, LinkId(-1))), NOT_ASSIGNED);
}

#[test]
fn one_held_and_two_idle() {
    let mut desk = Desk::new(1, 1);
    desk.call(1, 0, 10, 2);
    desk.call(2, 1, 10, 0);
    desk.call(3, 0, 10, 0);
    let before = desk.board.clone();
    assert_eq!(desk.ask(1, &records::execute(ID)), error(7));
    assert_eq!(desk.board, before);
    let octets = desk.ok(&records::facility(Reference(3), &records::execute(ID)));
    // The idle call is the named one: its Drop comes first, though its row is the higher one.
    let tells = [tell(103, 0, 0xEA, 1, 1, b"001"), tell(101, 0, 0xEA, 1, 1, b"003")];
    assert_eq!(octets, [reply(3, DONE), dropped(3, 1), tells.concat()].concat());
    let (_, counts) = count(&desk.board.rows);
    assert_eq!((counts.legs, counts.pairs, counts.links), (3, 1, 0));
}

#[test]
fn alerting_calls_count_only_where_the_option_allows() {
    for (alerting, expected) in [(0, DONE.to_vec()), (1, error(7))] {
        let mut desk = Desk::new(1, alerting);
        desk.call(1, 0, 10, 2);
        desk.call(2, 0, 4, 0);
        desk.call(3, 0, 10, 0);
        assert_eq!(desk.ask(1, &records::execute(ID)), expected);
    }
}

#[test]
fn buffer_of_127_and_of_128() {
    let mut board = Board::empty(1, 1);
    let record = records::open(Reference(1), 1, 0, 0, b"");
    assert_eq!(event(&mut board, &record, &mut [0; 127]).returned, 1);
    assert_eq!(event(&mut board, &record, &mut [0; 128]).returned, 0);
}

#[test]
fn invoke_into_31_octets_and_into_32() {
    let invoke = Invoke { identifier: InvokeId(5), operation: Operation::Execute };
    assert_eq!(invoke.write(&mut [0; 31]), Err(1));
    assert_eq!(invoke.write(&mut [0; 32]), Ok(8));
}

#[test]
fn counts() {
    let mut desk = Desk::new(1, 1);
    let of = |board: &Board| {
        let (returned, counts) = count(&board.rows);
        assert_eq!(returned, 0);
        (counts.legs, counts.pairs, counts.links)
    };
    assert_eq!(of(&desk.board), (0, 0, 0));
    desk.call(1, 0, 10, 2);
    desk.call(2, 0, 4, 0);
    desk.link(1);
    desk.link(2);
    assert_eq!(of(&desk.board), (2, 0, 2));
    desk.ask(1, &records::execute(ID));
    assert_eq!(of(&desk.board), (2, 1, 0));
    desk.ok(&records::release(101));
    assert_eq!(of(&desk.board), (0, 0, 0));
}
