//! Opens of both kinds, right and wrong.

use crate::board::NATIONAL;
use crate::event::{OPEN, OPEN_TYPED};
use crate::records::{self, perhaps_typed, TYPE_AT};
use crate::rng::Rng;
use crate::script::Script;

/// Which Opens a log has.
#[derive(Clone, Copy, PartialEq, Eq, Debug)]
pub enum Opens {
    /// Of kind 1 alone, as in logs that were stored before there was a type.
    Old,
    /// Of kind 9 with type 0, and of kind 1 at times.
    Moved,
    /// Of either kind and each type.
    Any,
}

impl Opens {
    /// The type of the next one; none for kind 1.
    pub fn number_type(self, rng: &mut Rng) -> Option<u8> {
        match self {
            Opens::Old => None,
            Opens::Moved => (!rng.percent(30)).then_some(0),
            Opens::Any => rng.pick(&[None, Some(0), Some(1), Some(1), Some(2), Some(2)]),
        }
    }
}

/// An Open with a field outside its range.
pub fn bad(script: &mut Script) -> Vec<u8> {
    let (reference, leg) = (script.fresh_reference(), script.fresh_leg());
    let leg = script.pick_leg().filter(|_| script.rng.percent(30)).unwrap_or(leg);
    let digits = script.digits();
    let record = records::open(reference, leg, 0, 0, &digits);
    let number_type = script.opens.number_type(script.rng);
    if number_type.is_some() && script.rng.percent(40) {
        return bad_type(script.rng, record);
    }
    let shift = number_type.is_some() as usize;
    let mut record = perhaps_typed(record, number_type);
    let (count, first) = (9 + shift, 10 + shift);
    match script.rng.below(7) {
        0 => record[7] = script.rng.within(2, 255) as u8,
        1 => record[8] = script.rng.within(2, 255) as u8,
        2 => record[count] = script.rng.within(16, 255) as u8,
        3 => record[first] = script.rng.pick(&[0x2F, 0x3A, 0xB1, 0x01, 0xFF]),
        4 => record[first + script.rng.below(15)] = script.rng.pick(&[0x30, 0x01, 0x80, 0x00]),
        5 => record[1..3].copy_from_slice(&script.rng.pick(&[[0, 0], [0x80, 0]])),
        _ => other_places(&mut record),
    }
    record
}

/// A type that there is not, at times with a field before or behind it that is wrong too.
fn bad_type(rng: &mut Rng, record: Vec<u8>) -> Vec<u8> {
    let any = rng.within(NATIONAL as usize + 3, 254) as u8;
    let mut record = records::typed(record, rng.pick(&[3, 3, 4, any, 255]));
    match rng.below(10) {
        0 => record[8] = 2,
        1 => record[TYPE_AT + 1] = 16,
        _ => {}
    }
    record
}

/// The kind is changed and the octets behind it stay at their places.
fn other_places(record: &mut Vec<u8>) {
    if record[0] == OPEN {
        record[0] = OPEN_TYPED;
        record.push(0);
    } else {
        record[0] = OPEN;
        record.pop();
    }
}

/// An Open whose leg or reference, or both, are on the board, at times with a type that there is not.
pub fn taken(script: &mut Script) -> Vec<u8> {
    let mut leg = script.fresh_leg();
    let mut reference = script.fresh_reference();
    let which = script.rng.below(3);
    if which != 0 {
        leg = script.pick_leg().unwrap_or(leg);
    }
    if which != 1 {
        reference = script.pick_call().map_or(reference, |call| call.reference);
    }
    let record = records::open(reference, leg, 0, 0, b"123");
    if script.opens == Opens::Any && script.rng.percent(10) {
        return records::typed(record, 3);
    }
    let number_type = script.opens.number_type(script.rng);
    perhaps_typed(record, number_type)
}
