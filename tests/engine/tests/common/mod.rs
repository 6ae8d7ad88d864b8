//! Short ways to play events in the tests.
#![allow(dead_code)]

pub mod ends;

use engine::board::{Aux, Board, Call, CallState, LinkId, Reference};
use engine::event::event;
use engine::notice::{watch, Moment};
use engine::opening::old_log;
use engine::records;
use engine::tally::Tally;

pub const ID: &[u8] = &[0x02, 0x01, 0x05];

/// All options of a board.
pub const OPTIONS: [(u8, u8); 12] =
    [(0, 0), (0, 1), (0, 2), (0, 3), (1, 0), (1, 1), (1, 2), (1, 3), (2, 0), (2, 1), (2, 2), (2, 3)];

/// One record of each kind.
pub fn one_of_each_kind() -> [Vec<u8>; 9] {
    [
        records::open(Reference(1), 1, 0, 0, b""),
        records::progress(Reference(1), 4),
        records::hold(Reference(1), 1),
        records::release(1),
        records::facility(Reference(1), &[0xA2]),
        records::answer(1),
        records::leg_facility(1, &[0xA1]),
        records::inform(Reference(1), &[0xA1]),
        records::typed(records::open(Reference(1), 1, 0, 0, b""), 2),
    ]
}

pub struct Desk {
    pub board: Board,
}

impl Desk {
    pub fn new(subscribed: u8, alerting: u8) -> Desk {
        let (returned, board) = old_log(subscribed, alerting);
        assert_eq!(returned, 0);
        Desk { board }
    }

    /// Plays a record; gives what it returned and the octets written.
    pub fn play(&mut self, record: &[u8]) -> (u8, Vec<u8>) {
        let mut buffer = [0x77; 160];
        let answer = event(&mut self.board, record, &mut buffer);
        assert!(buffer[answer.written..].iter().all(|&octet| octet == 0x77));
        (answer.returned, buffer[..answer.written].to_vec())
    }

    /// Plays a record that has to be accepted.
    pub fn ok(&mut self, record: &[u8]) -> Vec<u8> {
        let (returned, octets) = self.play(record);
        assert_eq!(returned, 0, "record {record:02x?}");
        octets
    }

    /// A call with leg 100 + reference and three digits made from it.
    pub fn call(&mut self, reference: u16, direction: u8, state: u8, aux: u8) {
        let digits = format!("{reference:03}");
        self.ok(&records::open(
            Reference(reference),
            100 + reference as u32,
            direction,
            0,
            digits.as_bytes(),
        ));
        match (direction, state) {
            (0, 4) | (_, 10) => drop(self.ok(&records::progress(Reference(reference), state))),
            _ => {}
        }
        for step in [&[] as &[u8], &[1], &[1, 2], &[1, 2, 3]][aux as usize] {
            self.ok(&records::hold(Reference(reference), *step));
        }
    }

    /// Legs 101 and 102 joined; 102 alerts or not.
    pub fn joined(alerts: bool) -> Desk {
        let mut desk = Desk::new(1, 1);
        desk.call(1, 0, 10, 2);
        desk.call(2, 0, if alerts { 4 } else { 10 }, 0);
        assert_eq!(desk.ask(1, &records::execute(ID)), DONE);
        desk
    }

    /// The component of the Reply to a component.
    pub fn ask(&mut self, reference: u16, component: &[u8]) -> Vec<u8> {
        let octets = self.ok(&records::facility(Reference(reference), component));
        reply_component(&octets, reference)
    }

    pub fn link(&mut self, reference: u16) -> Option<LinkId> {
        self.ask(reference, &records::link_request(ID));
        self.find(reference).and_then(|call| call.link)
    }

    pub fn find(&self, reference: u16) -> Option<Call> {
        let calls = self.board.rows.iter().filter_map(|row| row.call());
        calls.copied().find(|call| call.reference == Reference(reference))
    }
}

/// Calls 1 and 2 of legs 7 and 9 with such presentations and digits, both Idle, the first Active, the
/// second in that state.
pub fn two_idle(alerting: u8, state: u8, numbers: [(u8, &[u8]); 2]) -> Desk {
    let mut desk = Desk::new(1, alerting);
    for ((reference, leg, state), (presentation, digits)) in
        [(1, 7, 10), (2, 9, state)].into_iter().zip(numbers)
    {
        desk.ok(&records::open(Reference(reference), leg, 0, presentation, digits));
        desk.ok(&records::progress(Reference(reference), state));
    }
    desk
}

/// A call of each state, auxiliary state and direction, 32 in all, the direction changing fastest.
pub fn calls() -> Vec<Call> {
    let mut calls = Vec::new();
    for state in [CallState::Proceeding, CallState::Delivered, CallState::Received, CallState::Active] {
        for aux in [Aux::Idle, Aux::HoldRequest, Aux::Held, Aux::RetrieveRequest] {
            for direction in [0, 1] {
                calls.push(Call { reference: Reference(1), direction, state, aux, link: None });
            }
        }
    }
    calls
}

/// The component of the Reply that stands first in the octets written; empty if none.
pub fn reply_component(octets: &[u8], reference: u16) -> Vec<u8> {
    if octets.is_empty() {
        return Vec::new();
    }
    assert_eq!(octets[0], 0x81);
    assert_eq!(octets[1..3], reference.to_be_bytes());
    let count = octets[3] as usize;
    assert!(octets[4 + count..36].iter().all(|&octet| octet == 0));
    octets[4..4 + count].to_vec()
}

/// What a record is refused with, in a buffer of 128 octets; board and buffer stay as they were.
pub fn refused(board: &Board, record: &[u8]) -> u8 {
    refused_with(board, record, 128)
}

/// The same in a buffer of so many octets.
pub fn refused_with(board: &Board, record: &[u8], buffer: usize) -> u8 {
    let mut after = board.clone();
    let mut octets = vec![0x5A; buffer];
    let answer = event(&mut after, record, &mut octets);
    assert_ne!(answer.returned, 0);
    assert_eq!((answer.written, &after), (0, board));
    assert!(octets.iter().all(|&octet| octet == 0x5A));
    answer.returned
}

/// What occurs in a log.
pub fn met(log: &[u8]) -> Vec<String> {
    let mut tally = Tally::default();
    assert_eq!(watch(log, &mut tally), Ok(()));
    tally.met()
}

/// A Tell record.
pub fn tell(leg: u32, message: u8, description: u8, mark: u8, request: u8, digits: &[u8]) -> Vec<u8> {
    let mut octets = vec![0x82];
    octets.extend(leg.to_be_bytes());
    octets.extend([message, description, mark, request, digits.len() as u8]);
    octets.extend(digits);
    octets.resize(25, 0);
    octets
}

/// A Tell record with a type.
pub fn tell_typed(leg: u32, number_type: u8, digits: &[u8], request: u8) -> Vec<u8> {
    let mut octets = tell(leg, 0, 0xEA, 1, request, digits);
    octets[0] = 0x86;
    octets.insert(9, number_type);
    octets
}

/// A Reply record.
pub fn reply(reference: u16, component: &[u8]) -> Vec<u8> {
    records::with_component(0x81, &reference.to_be_bytes(), component, 32)
}

/// A Pass on record.
pub fn pass_on(leg: u32, component: &[u8]) -> Vec<u8> {
    records::with_component(0x85, &leg.to_be_bytes(), component, 64)
}

/// Two Drop records.
pub fn dropped(first: u16, second: u16) -> Vec<u8> {
    let ([a, b], [c, d]) = (first.to_be_bytes(), second.to_be_bytes());
    vec![0x83, a, b, 0x83, c, d]
}

pub fn error(value: u8) -> Vec<u8> {
    vec![0xA3, 6, 2, 1, 5, 2, 1, value]
}

pub const NOT_ASSIGNED: &[u8] = &[0xA3, 11, 2, 1, 5, 6, 6, 4, 0, 0x82, 0x71, 1, 0x15];
pub const DONE: &[u8] = &[0xA2, 3, 2, 1, 5];

/// What a wrong program would have done at an event is at fault; what was done is not.
pub fn judged(
    stands: fn(&Moment) -> Result<(), String>,
    before: &Board,
    record: &[u8],
    wrong: impl Fn(&mut Vec<u8>, &mut Board),
) -> Result<(), String> {
    let (mut after, mut buffer) = (before.clone(), [0; 128]);
    let done = event(&mut after, record, &mut buffer);
    let judge = |written: &[u8], after: &Board| {
        stands(&Moment { before, after, record, returned: done.returned, written })
    };
    let mut written = buffer[..done.written].to_vec();
    assert_eq!(judge(&written, &after), Ok(()));
    wrong(&mut written, &mut after);
    judge(&written, &after)
}
