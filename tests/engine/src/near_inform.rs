//! Arguments of EctInform invokes, right and wrong.

use crate::inform::MOST_DIGITS;
use crate::near::Room;
use crate::records::element;
use crate::rng::Rng;

const RESTRICTED: [u8; 2] = [0x81, 0x00];
const NULL: [u8; 2] = [0x05, 0x00];

/// An argument in any of its forms.
pub fn argument(rng: &mut Rng, room: Room) -> Vec<u8> {
    let most = if room == Room::Any { MOST_DIGITS } else { 9 };
    let number = match rng.weighted(&[20, 20, 60]) {
        0 => Vec::new(),
        1 => RESTRICTED.to_vec(),
        _ => given(&digits(rng, most)),
    };
    sequence(&[&indication(rng), &number])
}

/// An argument with these digits, the other call active.
pub fn active(digits: &[u8]) -> Vec<u8> {
    sequence(&[&[0x0A, 1, 1], &given(digits)])
}

pub fn parts(rng: &mut Rng) -> [Vec<u8>; 2] {
    [indication(rng), number(rng)]
}

fn sequence(parts: &[&[u8]]) -> Vec<u8> {
    element(0x30, &parts.concat())
}

fn indication(rng: &mut Rng) -> Vec<u8> {
    element(0x0A, &[rng.percent(60) as u8])
}

fn given(digits: &[u8]) -> Vec<u8> {
    element(0xA0, &element(0x80, digits))
}

/// A redirection number in either form.
fn number(rng: &mut Rng) -> Vec<u8> {
    if rng.percent(40) {
        RESTRICTED.to_vec()
    } else {
        given(&digits(rng, MOST_DIGITS))
    }
}

/// Digits, often as few or as many as there may be.
fn digits(rng: &mut Rng, most: usize) -> Vec<u8> {
    let edges = [1, 2, most - 1, most];
    let count = if rng.percent(60) { rng.pick(&edges) } else { rng.within(1, most) };
    some_digits(rng, count)
}

fn some_digits(rng: &mut Rng, count: usize) -> Vec<u8> {
    (0..count).map(|_| b'0' + rng.below(10) as u8).collect()
}

pub fn wrong_argument(rng: &mut Rng) -> Vec<u8> {
    match rng.weighted(&[10, 25, 65]) {
        0 => other_tag(rng),
        1 => bad_indication(rng),
        _ => {
            let number = bad_number(rng);
            sequence(&[&indication(rng), &number])
        }
    }
}

/// No argument, or one with another tag, or empty.
fn other_tag(rng: &mut Rng) -> Vec<u8> {
    let mut argument = argument(rng, Room::Any);
    match rng.below(5) {
        0 => return Vec::new(),
        1 => return element(0x30, &[]),
        2 => argument[0] = 0x31,
        3 => argument[0] = 0x04,
        _ => argument[0] = rng.pick(&[0x10, 0x70, 0xA0, 0xB0, 0x24]),
    }
    argument
}

/// A right number or none, and an indication that is wrong.
fn bad_indication(rng: &mut Rng) -> Vec<u8> {
    let (right, number) = (indication(rng), number(rng));
    let perhaps = if rng.percent(60) { number.clone() } else { Vec::new() };
    let value = right[2];
    let wrong = match rng.below(10) {
        0 => return sequence(&[&number]),
        1 => return sequence(&[&number, &right]),
        2 => [right.clone(), right].concat(),
        3 => element(0x02, &[value]),
        4 => element(rng.pick(&[0x01, 0x4A, 0x80, 0x8A]), &[value]),
        5 => element(0x0A, &[]),
        6 => element(0x0A, &[0, value]),
        7 => element(0x0A, &[2]),
        8 => element(0x0A, &[0xFF]),
        _ => element(0x0A, &[rng.within(3, 254) as u8]),
    };
    sequence(&[&wrong, &perhaps])
}

/// What is neither a redirection number nor nothing.
fn bad_number(rng: &mut Rng) -> Vec<u8> {
    match rng.weighted(&[20, 30, 25, 25]) {
        0 => other_number(rng),
        1 => element(0xA0, &bad_inner(rng)),
        2 => given(&bad_digits(rng)),
        _ => several(rng),
    }
}

/// One element, but neither 81 00 nor an A0.
fn other_number(rng: &mut Rng) -> Vec<u8> {
    let digits = digits(rng, MOST_DIGITS);
    match rng.below(8) {
        0 => element(0x81, &[rng.octet()]),
        1 => element(0x81, &digits),
        2 => element(0x80, &digits),
        3 => element(0xA1, &element(0x80, &digits)),
        4 => element(0xA1, &[]),
        5 => NULL.to_vec(),
        6 => element(0x80, &[]),
        _ => element(rng.pick(&[0x20, 0x30, 0xA2, 0xB0, 0xE0]), &element(0x80, &digits)),
    }
}

/// What an A0 may not hold.
fn bad_inner(rng: &mut Rng) -> Vec<u8> {
    let digits = digits(rng, MOST_DIGITS);
    let right = element(0x80, &digits);
    match rng.below(9) {
        0 => Vec::new(),
        1 => element(0x81, &digits),
        2 => element(0x82, &digits),
        3 => element(rng.pick(&[0x00, 0x04, 0x12, 0x16, 0x40]), &digits),
        4 => RESTRICTED.to_vec(),
        5 => [right, element(0x80, &some_digits(rng, 2))].concat(),
        6 => [right, NULL.to_vec()].concat(),
        7 => [right, rng.pick(&[[0x81, 0x00], [0x00, 0x00]]).to_vec()].concat(),
        _ => element(rng.pick(&[0x30, 0xA0]), &right),
    }
}

/// Too few, too many, or octets that are no digits among them.
fn bad_digits(rng: &mut Rng) -> Vec<u8> {
    let mut digits = digits(rng, MOST_DIGITS);
    let wrong = match rng.below(7) {
        0 => return Vec::new(),
        1 => return some_digits(rng, MOST_DIGITS + 1),
        2 => {
            let count = rng.within(MOST_DIGITS + 2, 40);
            return some_digits(rng, count);
        }
        3 => rng.pick(b"AFaz"),
        4 => 0x2F,
        5 => 0x3A,
        _ => rng.pick(&[0x00, 0x01, 0x20, 0x23, 0x2A, 0xB1, 0xFF]),
    };
    let place = rng.below(digits.len());
    let last = digits.len() - 1;
    digits[rng.pick(&[0, place, last])] = wrong;
    digits
}

/// Two numbers, or a number and another element.
fn several(rng: &mut Rng) -> Vec<u8> {
    let (restricted, given) = (RESTRICTED.to_vec(), given(&digits(rng, MOST_DIGITS)));
    let two = match rng.below(7) {
        0 => [restricted.clone(), restricted],
        1 => [restricted, given],
        2 => [given, restricted],
        3 => [given, self::given(&some_digits(rng, 3))],
        4 => [restricted, NULL.to_vec()],
        5 => [given, NULL.to_vec()],
        _ => [number(rng), element(rng.pick(&[0x00, 0x0A, 0x82]), &[0])],
    };
    two.concat()
}
