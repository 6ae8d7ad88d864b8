//! Components that are unusual, wrong or plain noise.

use crate::component::{EXPLICIT, LINK_REQUEST, OBJECT};
use crate::records::{element, invoke, long_integer, object, short_integer};
use crate::rng::Rng;
use crate::script::Script;

pub fn component(script: &mut Script) -> Vec<u8> {
    let identifier = script.identifier_element();
    let link = script.pick_call_with(|call| call.link.is_some()).and_then(|call| call.link);
    let link = link.map_or(1, |link| link.0);
    let rng = &mut *script.rng;
    let mut component = match rng.below(9) {
        0 => return noise(rng, 32),
        1 => invoke(&[&bad_identifier(rng), &object(LINK_REQUEST)]),
        2 => invoke(&[&identifier, &bad_operation(rng)]),
        3 => invoke(&[&identifier, &odd_operation(rng), &short_integer(link)]),
        4 => invoke(&[&identifier, &object(EXPLICIT), &bad_argument(rng)]),
        5 | 6 => with_further(rng, &identifier, link),
        7 => invoke(&[&identifier, &object(EXPLICIT), &barely_two(rng)]),
        _ => invoke(&[&identifier, &[2, 1, 6]]),
    };
    match rng.below(10) {
        0 => component[0] = rng.pick(&[0xA0, 0xA2, 0xA3, 0xA4, 0xA5, 0x21, 0x00, 0xFF]),
        1 => component[1] = component[1].wrapping_add(rng.pick(&[1, 255, 0x80])),
        2 => component.truncate(rng.within(1, component.len())),
        3 => flip(rng, &mut component),
        _ => {}
    }
    fit(component)
}

/// At most 32 octets and at least one.
fn fit(mut component: Vec<u8>) -> Vec<u8> {
    component.truncate(32);
    component
}

/// Up to so many octets of any value; often the front is right.
pub fn noise(rng: &mut Rng, longest: usize) -> Vec<u8> {
    let length = rng.within(1, longest);
    let mut octets: Vec<u8> = (0..length).map(|_| rng.octet()).collect();
    if rng.percent(70) {
        octets[0] = rng.pick(&[0xA1, 0xA1, 0xA1, 0xA2, 0xA3, 0xA4]);
    }
    if length > 1 && rng.percent(70) {
        octets[1] = length as u8 - 2;
    }
    octets
}

pub fn flip(rng: &mut Rng, octets: &mut [u8]) {
    for _ in 0..rng.within(1, 3) {
        octets[rng.below(octets.len())] ^= 1 << rng.below(8);
    }
}

/// A padded integer of either sign: at the borders, near the one local operation, or any.
pub fn padded(rng: &mut Rng) -> Vec<u8> {
    long_integer(match rng.below(3) {
        0 => rng.pick(&[-128, -1, 0, 127]),
        1 => rng.pick(&[5, 6]),
        _ => rng.below(256) as i16 - 128,
    })
}

/// Next to the padded ones, and lawful: without the first octet the sign would be another.
fn barely_two(rng: &mut Rng) -> Vec<u8> {
    long_integer(rng.pick(&[128, -129]))
}

pub fn bad_identifier(rng: &mut Rng) -> Vec<u8> {
    match rng.below(6) {
        0 => Vec::new(),
        1 => vec![2, 0],
        2 => vec![2, 3, 0, 0, rng.octet()],
        3 => vec![0x80, 1, rng.octet()],
        4 => padded(rng),
        _ => element(0x0A, &[1]),
    }
}

/// A second element that cannot be an operation.
fn bad_operation(rng: &mut Rng) -> Vec<u8> {
    match rng.below(8) {
        0 => Vec::new(),
        1 => vec![2, 0],
        2 => vec![2, 3, 0, 0, 6],
        3 => vec![6, 0],
        4 => vec![0x80, 1, 6],
        5 | 6 => padded(rng),
        _ => element(0x30, &[2, 1, 6]),
    }
}

/// A second element in good form: one of the three known ones, or near them.
fn odd_operation(rng: &mut Rng) -> Vec<u8> {
    match rng.below(8) {
        0 => barely_two(rng),
        1 => short_integer(rng.within(0, 12) as i16),
        2 => long_integer(rng.pick(&[262, -250, 1536, 0x0601])),
        3 => object(rng.within(0, 8) as u8),
        4 => element(6, &OBJECT),
        5 => element(6, &[OBJECT[0], OBJECT[1], OBJECT[2], OBJECT[3], 2, LINK_REQUEST]),
        6 => element(6, &[OBJECT.as_slice(), &[LINK_REQUEST, 0]].concat()),
        _ => element(6, &[rng.pick(&[4, 6, 1])]),
    }
}

fn bad_argument(rng: &mut Rng) -> Vec<u8> {
    match rng.below(7) {
        0 => Vec::new(),
        1 => vec![2, 0],
        2 => vec![2, 3, 0, 0, 1],
        3 => vec![0x0A, 1, 1],
        4 => vec![5, 0],
        5 => padded(rng),
        _ => element(0x30, &[2, 1, 1]),
    }
}

/// A good invoke with further elements behind it, nested or broken at times.
fn with_further(rng: &mut Rng, identifier: &[u8], link: i16) -> Vec<u8> {
    let further = match rng.below(9) {
        0 | 1 => nested(rng, 4),
        2 | 3 => nested(rng, 5),
        4 => element(rng.pick(&[0x1F, 0x3F, 0xBF, 0xDF]), &[0]),
        5 => vec![4, rng.pick(&[0x80, 0x81, 0xFF]), 0],
        6 => vec![4, 3, 0],
        7 => padded(rng),
        _ => element(0x04, &[rng.octet(), rng.octet()]),
    };
    match rng.below(3) {
        0 => invoke(&[identifier, &[2, 1, 6], &further]),
        1 => invoke(&[identifier, &object(LINK_REQUEST), &further]),
        _ => invoke(&[identifier, &object(EXPLICIT), &short_integer(link), &further]),
    }
}

/// Elements one inside the other, the innermost at the given depth.
fn nested(rng: &mut Rng, depth: usize) -> Vec<u8> {
    let mut inner = match rng.below(4) {
        0 => vec![0x30, 0],
        1 => vec![5, 0],
        2 => padded(rng),
        _ => vec![2, 1, rng.octet()],
    };
    for _ in 1..depth {
        inner = element(rng.pick(&[0x30, 0xA0, 0x24, 0x7E]), &inner);
    }
    inner
}
