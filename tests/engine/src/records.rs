//! Building event records and components.

use crate::board::{LinkId, Reference};
use crate::component::{ECT_INFORM, EXPLICIT, LINK_REQUEST, OBJECT, SUBADDRESS};
use crate::event::{ANSWER, FACILITY, HOLD, INFORM, LEG_FACILITY, OPEN, OPEN_TYPED, PROGRESS, RELEASE};

/// The place of the type of number in an Open that has one.
pub const TYPE_AT: usize = 9;

/// An Open record. `digits` has at most fifteen octets.
pub fn open(reference: Reference, leg: u32, direction: u8, presentation: u8, digits: &[u8]) -> Vec<u8> {
    let mut record = vec![OPEN];
    record.extend(reference.0.to_be_bytes());
    record.extend(leg.to_be_bytes());
    record.extend([direction, presentation, digits.len() as u8]);
    record.extend(digits);
    record.resize(25, 0);
    record
}

/// The same with a type of number.
pub fn typed(mut open: Vec<u8>, number_type: u8) -> Vec<u8> {
    open[0] = OPEN_TYPED;
    open.insert(TYPE_AT, number_type);
    open
}

/// An Open with a type, or one of kind 1 where there is none.
pub fn perhaps_typed(open: Vec<u8>, number_type: Option<u8>) -> Vec<u8> {
    match number_type {
        Some(number_type) => typed(open, number_type),
        None => open,
    }
}

pub fn progress(reference: Reference, state: u8) -> Vec<u8> {
    let [high, low] = reference.0.to_be_bytes();
    vec![PROGRESS, high, low, state]
}

pub fn hold(reference: Reference, aux: u8) -> Vec<u8> {
    let [high, low] = reference.0.to_be_bytes();
    vec![HOLD, high, low, aux]
}

pub fn release(leg: u32) -> Vec<u8> {
    let [a, b, c, d] = leg.to_be_bytes();
    vec![RELEASE, a, b, c, d]
}

pub fn answer(leg: u32) -> Vec<u8> {
    let [a, b, c, d] = leg.to_be_bytes();
    vec![ANSWER, a, b, c, d]
}

/// A record with a component: its kind, the reference or leg, the count, the component, zeros.
/// What the component has beyond so many octets is left off.
pub fn with_component(kind: u8, named: &[u8], component: &[u8], room: usize) -> Vec<u8> {
    let component = &component[..component.len().min(room)];
    let mut record = vec![kind];
    record.extend(named);
    record.push(component.len() as u8);
    record.extend(component);
    record.resize(2 + named.len() + room, 0);
    record
}

pub fn facility(reference: Reference, component: &[u8]) -> Vec<u8> {
    with_component(FACILITY, &reference.0.to_be_bytes(), component, 32)
}

pub fn leg_facility(leg: u32, component: &[u8]) -> Vec<u8> {
    with_component(LEG_FACILITY, &leg.to_be_bytes(), component, 64)
}

pub fn inform(reference: Reference, component: &[u8]) -> Vec<u8> {
    with_component(INFORM, &reference.0.to_be_bytes(), component, 64)
}

/// An element of up to 127 octets.
pub fn element(tag: u8, contents: &[u8]) -> Vec<u8> {
    let mut element = vec![tag, contents.len() as u8];
    element.extend(contents);
    element
}

/// An invoke component from its elements.
pub fn invoke(elements: &[&[u8]]) -> Vec<u8> {
    element(0xA1, &elements.concat())
}

/// The object identifier of an operation.
pub fn object(last: u8) -> Vec<u8> {
    let mut contents = OBJECT.to_vec();
    contents.push(last);
    element(0x06, &contents)
}

/// An integer in fewest octets.
pub fn short_integer(value: i16) -> Vec<u8> {
    match i8::try_from(value) {
        Ok(octet) => element(0x02, &[octet as u8]),
        Err(_) => long_integer(value),
    }
}

/// An integer in two octets, padded where one would do.
pub fn long_integer(value: i16) -> Vec<u8> {
    element(0x02, &value.to_be_bytes())
}

pub fn execute(identifier: &[u8]) -> Vec<u8> {
    invoke(&[identifier, &[0x02, 0x01, 0x06]])
}

pub fn explicit(identifier: &[u8], link: &[u8]) -> Vec<u8> {
    with_argument(EXPLICIT, identifier, link)
}

pub fn explicit_link(identifier: &[u8], link: LinkId) -> Vec<u8> {
    explicit(identifier, &short_integer(link.0))
}

pub fn link_request(identifier: &[u8]) -> Vec<u8> {
    invoke(&[identifier, &object(LINK_REQUEST)])
}

/// An invoke of the operation whose object identifier ends so, with that argument.
pub fn with_argument(operation: u8, identifier: &[u8], argument: &[u8]) -> Vec<u8> {
    invoke(&[identifier, &object(operation), argument])
}

pub fn subaddress_transfer(identifier: &[u8], argument: &[u8]) -> Vec<u8> {
    with_argument(SUBADDRESS, identifier, argument)
}

pub fn ect_inform(identifier: &[u8], argument: &[u8]) -> Vec<u8> {
    with_argument(ECT_INFORM, identifier, argument)
}
