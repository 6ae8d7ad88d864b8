//! Records of full length with a field outside its range.

use crate::near_move::of_kind;
use crate::rng::Rng;

/// Kind, place and octet. At place 1 it is the first of a reference whose second octet is 0 then.
pub const FIELDS: [(u8, usize, u8); 38] = [
    (1, 1, 0),
    (1, 1, 0x80),
    (1, 7, 2),
    (1, 7, 255),
    (1, 8, 2),
    (1, 9, 16),
    (1, 10, 0x2F),
    (1, 24, 0x3A),
    (2, 1, 0),
    (2, 1, 0x80),
    (2, 3, 0),
    (2, 3, 3),
    (2, 3, 11),
    (3, 1, 0),
    (3, 1, 0x80),
    (3, 3, 4),
    (3, 3, 255),
    (5, 1, 0),
    (5, 3, 0),
    (5, 3, 33),
    (5, 35, 1),
    (7, 5, 0),
    (7, 5, 65),
    (7, 69, 1),
    (7, 69, 128),
    (8, 1, 0x80),
    (8, 3, 0),
    (8, 3, 65),
    (8, 67, 1),
    (9, 1, 0),
    (9, 1, 0x80),
    (9, 7, 2),
    (9, 8, 2),
    (9, 9, 3),
    (9, 9, 255),
    (9, 10, 16),
    (9, 11, 0x3A),
    (9, 25, 0x3A),
];

/// A record of that kind with that field.
pub fn with(rng: &mut Rng, (kind, place, octet): (u8, usize, u8)) -> Vec<u8> {
    let mut record = of_kind(rng, kind);
    record[place] = octet;
    if place == 1 {
        record[2] = 0;
    }
    record
}

pub fn any(rng: &mut Rng) -> Vec<u8> {
    let field = rng.pick(&FIELDS);
    with(rng, field)
}
