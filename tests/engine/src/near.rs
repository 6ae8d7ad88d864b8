//! The invokes that a Leg facility and an Inform ask for, and components and records that miss
//! being right in a single point.

use crate::carrier::{Carrier, ROOM};
use crate::component::{Operation, EXPLICIT, LINK_REQUEST, OBJECT};
use crate::odd;
use crate::records::{element, invoke, object, short_integer, with_argument};
use crate::rng::Rng;
use crate::script::Script;
use crate::{near_inform, near_subaddress};

/// How much of an argument there is room for: any, or one that fits into a Facility.
#[derive(Clone, Copy, PartialEq, Eq)]
pub enum Room {
    Any,
    Facility,
}

/// An invoke that is accepted.
pub fn right(script: &mut Script, carrier: Carrier) -> Vec<u8> {
    with_room(script, carrier, Room::Any)
}

/// The served user's terminal sends it: that is a Facility, and it is not served.
pub fn on_a_call(script: &mut Script, carrier: Carrier) {
    let Some(call) = script.pick_call() else { return };
    let component = with_room(script, carrier, Room::Facility);
    script.facility(call.reference, &component);
}

fn with_room(script: &mut Script, carrier: Carrier, room: Room) -> Vec<u8> {
    let identifier = script.identifier_element();
    with_argument(carrier.operation(), &identifier, &argument(script.rng, carrier, room))
}

fn argument(rng: &mut Rng, carrier: Carrier, room: Room) -> Vec<u8> {
    match carrier {
        Carrier::LegFacility => near_subaddress::argument(rng, room),
        Carrier::Inform => near_inform::argument(rng, room),
    }
}

fn wrong_argument(rng: &mut Rng, carrier: Carrier) -> Vec<u8> {
    match carrier {
        Carrier::LegFacility => near_subaddress::wrong_argument(rng),
        Carrier::Inform => near_inform::wrong_argument(rng),
    }
}

/// What stands first in an argument's 30, and what may stand second.
fn parts(rng: &mut Rng, carrier: Carrier) -> [Vec<u8>; 2] {
    match carrier {
        Carrier::LegFacility => near_subaddress::parts(rng),
        Carrier::Inform => near_inform::parts(rng),
    }
}

/// A component that is no such invoke, for one reason.
pub fn miss(script: &mut Script, carrier: Carrier) -> Vec<u8> {
    let identifier = script.identifier_element();
    let rng = &mut *script.rng;
    let argument = argument(rng, carrier, Room::Any);
    let operation = carrier.operation();
    let good = with_argument(operation, &identifier, &argument);
    // An Inform has more ways to miss in its argument.
    let of_argument = if carrier == Carrier::Inform { 90 } else { 32 };
    match rng.weighted(&[8, 8, 10, 20, of_argument, 14, 8, 6]) {
        0 => with_first(rng, good),
        1 => with_length(rng, good),
        2 => with_argument(operation, &odd::bad_identifier(rng), &argument),
        3 => invoke(&[&identifier, &other_operation(rng, carrier), &argument]),
        4 => with_argument(operation, &identifier, &wrong_argument(rng, carrier)),
        5 => with_behind(rng, carrier, &good),
        6 => with_argument(operation, &identifier, &broken(rng, argument)),
        _ => flipped(rng, good),
    }
}

fn with_first(rng: &mut Rng, mut component: Vec<u8>) -> Vec<u8> {
    component[0] = rng.pick(&[0xA2, 0xA3, 0xA4, 0xA0, 0xA5, 0xB1, 0x81, 0x21, 0x30, 0x00]);
    component
}

/// One too small, one too large, or in two octets.
fn with_length(rng: &mut Rng, mut component: Vec<u8>) -> Vec<u8> {
    match rng.below(3) {
        0 => component[1] -= 1,
        1 => component[1] += 1,
        _ => component.insert(1, 0x81),
    }
    component
}

fn other_operation(rng: &mut Rng, carrier: Carrier) -> Vec<u8> {
    let own = carrier.operation();
    let object_of = |octets: &[u8]| element(0x06, octets);
    match rng.below(14) {
        0 => Vec::new(),
        1 => object(EXPLICIT),
        2 => object(0x02),
        3 => object(LINK_REQUEST),
        4 => object(carrier.other().operation()),
        5 => object(0x06),
        6 => object(rng.pick(&[0x00, 0x07, 0x13, 0x83, 0x85, 0x15])),
        7 => object_of(&OBJECT),
        8 => object_of(&[OBJECT.as_slice(), &[own, rng.pick(&[0x00, own])]].concat()),
        9 => object_of(&[OBJECT[0], OBJECT[1], OBJECT[2], OBJECT[3], 2, own]),
        10 => short_integer(6),
        11 => short_integer(own as i16),
        12 => short_integer(rng.pick(&[1, 4, 256 + own as i16, own as i16 - 256])),
        _ => element(rng.pick(&[0x04, 0x46, 0x86]), &[OBJECT.as_slice(), &[own]].concat()),
    }
}

/// An invoke with elements behind its argument, at times so that there are 64 octets in all.
fn with_behind(rng: &mut Rng, carrier: Carrier, good: &[u8]) -> Vec<u8> {
    let [first, second] = parts(rng, carrier);
    let behind = match rng.below(8) {
        0 => vec![0x05, 0x00],
        1 => first,
        2 => second,
        3 => vec![0x00, 0x00],
        4 => element(rng.pick(&[0x02, 0x30, 0x82, 0xA1]), &[0x05, 0x00]),
        5 => [second, vec![0x05, 0x00]].concat(),
        _ => element(0x04, &vec![rng.octet(); ROOM - good.len() - 2]),
    };
    invoke(&[&good[2..], &behind])
}

/// What follows the operation is not whole elements.
fn broken(rng: &mut Rng, mut argument: Vec<u8>) -> Vec<u8> {
    let last = argument.len() - 1;
    match rng.below(6) {
        0 => argument[1] += rng.within(1, 3) as u8,
        1 => argument.truncate(last),
        2 => argument[0] = rng.pick(&[0x1F, 0x3F, 0x9F]),
        3 => argument.insert(1, 0x81),
        4 => argument[1] |= 0x80,
        _ => argument.extend(element(0x30, &element(0x30, &[0x30, 4, 0x30, 2, 5, 0]))),
    }
    argument
}

/// Bits changed, which may leave an invoke that is right.
fn flipped(rng: &mut Rng, mut component: Vec<u8>) -> Vec<u8> {
    odd::flip(rng, &mut component);
    component
}

/// An invoke that is served on a call, that of the other event, an odd component, or up to 64
/// octets of any value.
pub fn anything(script: &mut Script, carrier: Carrier) -> Vec<u8> {
    let link = script.board.candidate;
    match script.rng.below(8) {
        0 => script.invoke(Operation::Execute),
        1 => script.invoke(Operation::Explicit(link)),
        2 => script.invoke(Operation::LinkRequest),
        3 => right(script, carrier.other()),
        4 => odd::noise(script.rng, ROOM),
        5 => odd::noise(script.rng, 1),
        _ => odd::component(script),
    }
}

/// A component with which a record is spoilt.
pub fn mostly_right(script: &mut Script, carrier: Carrier) -> Vec<u8> {
    if script.rng.percent(75) {
        right(script, carrier)
    } else {
        miss(script, carrier)
    }
}

/// Makes a count or a fill octet wrong, or has the count cut the component or say too much.
pub fn spoil(rng: &mut Rng, carrier: Carrier, record: &mut [u8]) {
    let (count, last) = (carrier.count_at(), carrier.length() - 1);
    let behind = (carrier.component_at() + record[count] as usize).min(last);
    match rng.below(10) {
        0 => record[count] = 0,
        1 => record[count] = 65,
        2 => record[count] = 255,
        3 => record[count] = rng.within(66, 254) as u8,
        4 => record[behind] = rng.within(1, 255) as u8,
        5 => record[last] = rng.within(1, 255) as u8,
        6 => record[rng.within(behind, last)] = rng.within(1, 255) as u8,
        7 => record[count] -= 1,
        8 => {
            record[behind - 1] = 0;
            record[count] -= 1;
        }
        _ => record[count] += 1,
    }
}
