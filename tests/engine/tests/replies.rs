//! The octets of transfers, releases and answers.

mod common;

use common::{dropped, error, reply, tell, Desk, DONE, ID, NOT_ASSIGNED};
use engine::board::{LinkId, Reference, Row, Standing};
use engine::records::{
    answer, execute, explicit, explicit_link, facility, long_integer, open, progress, release,
};

/// A call to leg 100 + reference with that presentation and those digits.
fn party(desk: &mut Desk, reference: u16, state: u8, presentation: u8, digits: &[u8]) {
    desk.ok(&open(Reference(reference), 100 + reference as u32, 0, presentation, digits));
    desk.ok(&progress(Reference(reference), state));
}

fn hold(desk: &mut Desk, reference: u16) {
    for aux in [1, 2] {
        desk.ok(&engine::records::hold(Reference(reference), aux));
    }
}

#[test]
fn both_active() {
    let mut desk = Desk::new(1, 0);
    party(&mut desk, 1, 10, 0, b"21");
    party(&mut desk, 2, 10, 1, b"123456789012345");
    hold(&mut desk, 1);
    let octets = desk.ok(&facility(Reference(2), &execute(ID)));
    let expected =
        [reply(2, DONE), dropped(2, 1), tell(102, 0, 0xEA, 1, 1, b"21"), tell(101, 0, 0xEA, 2, 1, b"")];
    assert_eq!(octets, expected.concat());
    assert_eq!(octets.len(), 92);
    assert_eq!(desk.board.rows[0].standing, Standing::Joined { partner: 102, alerts: false });
    assert_eq!(desk.board.rows[1].standing, Standing::Joined { partner: 101, alerts: false });
    assert_eq!(desk.ok(&release(101)), [0x84, 0, 0, 0, 102]);
    assert!(desk.board.rows.iter().all(|row| *row == Row::EMPTY));
}

#[test]
fn one_alerting_named_active() {
    let mut desk = Desk::new(1, 1);
    party(&mut desk, 1, 10, 0, b"21");
    party(&mut desk, 2, 4, 0, b"33");
    hold(&mut desk, 1);
    let octets = desk.ok(&facility(Reference(1), &execute(ID)));
    let expected =
        [reply(1, DONE), dropped(1, 2), tell(101, 0, 0xE9, 0, 1, b""), tell(102, 1, 0xEA, 1, 0, b"21")];
    assert_eq!(octets, expected.concat());
    assert_eq!(desk.board.rows[0].standing, Standing::Joined { partner: 102, alerts: false });
    assert_eq!(desk.board.rows[1].standing, Standing::Joined { partner: 101, alerts: true });
    assert_eq!(desk.ok(&answer(102)), tell(101, 0, 0xEA, 1, 0, b"33"));
    assert_eq!(desk.board.rows[1].standing, Standing::Joined { partner: 101, alerts: false });
}

#[test]
fn one_alerting_named_alerting_and_held() {
    let mut desk = Desk::new(1, 1);
    party(&mut desk, 1, 10, 1, b"");
    party(&mut desk, 2, 4, 1, b"33");
    hold(&mut desk, 2);
    let link = desk.link(1).unwrap();
    let octets = desk.ok(&facility(Reference(2), &explicit_link(ID, link)));
    let expected =
        [reply(2, DONE), dropped(2, 1), tell(102, 1, 0xEA, 0, 0, b""), tell(101, 0, 0xE9, 0, 1, b"")];
    assert_eq!(octets, expected.concat());
    assert_eq!(desk.ok(&answer(102)), tell(101, 0, 0xEA, 2, 0, b""));
}

/// Reference, leg and call state of two calls in the lowest rows.
type Calls = [(u16, u32, u8); 2];

/// The octets of the transfer of two calls; `held` and `named` are places.
fn transfer(calls: Calls, held: usize, named: usize, by_link: bool) -> Vec<u8> {
    let mut desk = Desk::new(1, 1);
    for (reference, leg, state) in calls {
        desk.ok(&open(Reference(reference), leg, 0, 0, b"21"));
        desk.ok(&progress(Reference(reference), state));
    }
    hold(&mut desk, calls[held].0);
    let link = desk.link(calls[1 - named].0).unwrap();
    let component = if by_link { explicit_link(ID, link) } else { execute(ID) };
    desk.ok(&facility(Reference(calls[named].0), &component))
}

/// Neither row, reference, leg, state nor operation has a say in it.
#[test]
fn drops_and_tells_begin_with_the_named_call() {
    let pairs = [[(7, 30), (9, 40)], [(9, 40), (7, 30)], [(7, 40), (9, 30)], [(0x8001, 30), (2, 40)]];
    for [(a, leg_a), (b, leg_b)] in pairs {
        for [state_a, state_b] in [[10, 10], [4, 10], [10, 4]] {
            let calls = [(a, leg_a, state_a), (b, leg_b, state_b)];
            for (held, by_link) in [(0, false), (0, true), (1, false), (1, true)] {
                let named_lower = transfer(calls, held, 0, by_link);
                assert_eq!(named_lower[36..42], dropped(a, b));
                assert_eq!((told(&named_lower[42..]), told(&named_lower[67..])), (leg_a, leg_b));
                let named_higher = transfer(calls, held, 1, by_link);
                assert_eq!(named_higher[36..42], dropped(b, a));
                assert_eq!((told(&named_higher[42..]), told(&named_higher[67..])), (leg_b, leg_a));
            }
        }
    }
}

/// The leg of the Tell that stands first in the octets.
fn told(octets: &[u8]) -> u32 {
    assert_eq!(octets[0], 0x82);
    u32::from_be_bytes([octets[1], octets[2], octets[3], octets[4]])
}

#[test]
fn alerting_transfer_needs_its_option() {
    let mut desk = Desk::new(1, 0);
    party(&mut desk, 1, 10, 0, b"21");
    party(&mut desk, 2, 4, 0, b"33");
    hold(&mut desk, 1);
    assert_eq!(desk.ask(1, &execute(ID)), error(7));
    let link = desk.link(2).unwrap();
    assert_eq!(desk.ask(1, &explicit_link(ID, link)), error(7));
}

#[test]
fn link_ids_go_with_a_transfer() {
    let mut desk = Desk::new(1, 1);
    desk.call(1, 0, 10, 2);
    desk.call(2, 0, 10, 0);
    desk.call(3, 0, 10, 0);
    let links = [desk.link(1).unwrap(), desk.link(2).unwrap()];
    // Padded it is no LinkId.
    assert_eq!(desk.ask(1, &explicit(ID, &long_integer(links[1].0))), [0xA4, 6, 2, 1, 5, 0x81, 1, 2]);
    assert_eq!(desk.ask(1, &explicit_link(ID, links[1])), DONE);
    for link in links {
        assert_eq!(desk.ask(3, &explicit_link(ID, link)), NOT_ASSIGNED);
    }
    assert_eq!(desk.link(3), Some(LinkId(2)));
}

#[test]
fn negative_link_id_transfers() {
    for value in [-1, -128, -129, -32768] {
        let mut desk = Desk::new(1, 1);
        desk.call(1, 0, 10, 2);
        desk.call(2, 0, 10, 0);
        desk.board.candidate = LinkId(value);
        assert_eq!(desk.link(2), Some(LinkId(value)));
        assert_eq!(desk.ask(1, &explicit_link(ID, LinkId(value))), DONE);
    }
}

#[test]
fn releases() {
    let mut desk = Desk::new(1, 1);
    desk.call(0x8001, 1, 7, 0);
    let leg = desk.board.rows[0].leg;
    assert_eq!(desk.ok(&release(leg)), [0x83, 0x80, 0x01]);
    desk.call(1, 0, 10, 2);
    desk.call(2, 0, 4, 0);
    desk.ask(1, &execute(ID));
    assert_eq!(desk.ok(&release(102)), [0x84, 0, 0, 0, 101]);
    assert!(desk.board.rows.iter().all(|row| *row == Row::EMPTY));
}
