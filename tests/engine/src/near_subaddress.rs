//! Arguments of SubaddressTransfer invokes, right and wrong.

use crate::near::Room;
use crate::records::element;
use crate::rng::Rng;
use crate::subaddress::LONGEST;

/// An argument in any of its forms.
pub fn argument(rng: &mut Rng, room: Room) -> Vec<u8> {
    let longest = if room == Room::Any { LONGEST } else { 11 };
    let subaddress = element(0x04, &octets(rng, longest));
    match rng.below(3) {
        0 => subaddress,
        1 => element(0x30, &subaddress),
        _ => element(0x30, &[subaddress, flag(rng)].concat()),
    }
}

pub fn parts(rng: &mut Rng) -> [Vec<u8>; 2] {
    [element(0x04, &octets(rng, LONGEST)), flag(rng)]
}

/// The octets of a subaddress: often one of the shortest or longest, at times zeros.
fn octets(rng: &mut Rng, longest: usize) -> Vec<u8> {
    let edges = [1, 2, longest - 1, longest];
    let count = if rng.percent(60) { rng.pick(&edges) } else { rng.within(1, longest) };
    let mut octets: Vec<u8> = (0..count).map(|_| rng.octet()).collect();
    if rng.percent(10) {
        let zeros = rng.within(1, count);
        octets[count - zeros..].fill(0);
    }
    octets
}

fn flag(rng: &mut Rng) -> Vec<u8> {
    let value = rng.octet();
    element(0x01, &[rng.pick(&[0x00, 0xFF, value])])
}

pub fn wrong_argument(rng: &mut Rng) -> Vec<u8> {
    if rng.percent(30) {
        neither(rng)
    } else {
        bad_sequence(rng)
    }
}

/// An argument that is neither of the two.
fn neither(rng: &mut Rng) -> Vec<u8> {
    let subaddress = octets(rng, LONGEST);
    let inner = element(0x04, &subaddress);
    match rng.below(7) {
        0 => Vec::new(),
        1 => element(0x04, &[]),
        2 => element(0x04, &[rng.octet(); LONGEST + 1]),
        3 => element(0x04, &vec![rng.octet(); rng.within(LONGEST + 2, 48)]),
        4 => element(0x24, &inner),
        5 => element(rng.pick(&[0x00, 0x02, 0x03, 0x05, 0x0C, 0x12, 0x44, 0x80, 0x84]), &subaddress),
        _ => element(rng.pick(&[0x20, 0x31, 0x70, 0xA0, 0xB0]), &inner),
    }
}

/// A 30 that does not hold what it has to.
fn bad_sequence(rng: &mut Rng) -> Vec<u8> {
    let [good, flag] = parts(rng);
    let perhaps = if rng.percent(50) { flag.clone() } else { Vec::new() };
    let parts: [Vec<u8>; 2] = match rng.below(12) {
        0 => [Vec::new(), Vec::new()],
        1 => [element(0x04, &[]), perhaps],
        2 => [element(0x04, &[rng.octet(); LONGEST + 1]), perhaps],
        3 => [element(rng.pick(&[0x02, 0x05, 0x0C, 0x80, 0x84]), &octets(rng, LONGEST)), perhaps],
        4 => [Vec::new(), flag],
        5 => [flag, good],
        6 => [good, element(0x01, &[])],
        7 => [good, element(0x01, &[rng.octet(), rng.octet()])],
        8 => [good, element(rng.pick(&[0x00, 0x02, 0x05, 0x0A, 0x21, 0x81]), &flag[2..])],
        9 => [good, [flag, self::flag(rng)].concat()],
        10 => [good, element(0x04, &octets(rng, LONGEST))],
        _ => [good, [flag, rng.pick(&[[0x05, 0x00], [0x04, 0x00], [0x00, 0x00]]).to_vec()].concat()],
    };
    element(0x30, &parts.concat())
}
