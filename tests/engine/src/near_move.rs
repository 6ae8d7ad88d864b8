//! Logs that are moved, or miss being moved in a single point.

use crate::board::{Reference, UNKNOWN};
use crate::event::{body_length, ANSWER, FACILITY, HOLD, INFORM, LEG_FACILITY, OPEN, PROGRESS, RELEASE};
use crate::moving::{bad, records, Way};
use crate::play::start;
use crate::records::{self as make, typed, TYPE_AT};
use crate::rng::Rng;

/// A few good records of a log that do without a type, at times all, and others among and behind them
/// of which some are bad; at times bad options.
pub fn log(rng: &mut Rng, from: &[u8]) -> Vec<u8> {
    let mut log = front(rng, from);
    if rng.percent(6) {
        opens_alone(rng, &mut log);
        return log;
    }
    for _ in 0..rng.weighted(&[12, 44, 32, 12]) {
        let (piece, last) = piece(rng);
        log.extend(piece);
        if last {
            break;
        }
        if rng.percent(30) {
            log.extend(good(rng));
        }
    }
    if rng.percent(10) {
        spoil_options(rng, &mut log);
    }
    log
}

/// The options and nothing else, or a few Opens of one form.
fn opens_alone(rng: &mut Rng, log: &mut Vec<u8>) {
    log.truncate(2);
    let new = rng.percent(50);
    for _ in 0..rng.pick(&[0, 1, 2, 3]) {
        let record = open(rng);
        log.extend(if new { typed(record, UNKNOWN) } else { record });
    }
}

/// The options, and up to eight good records of a log or all, at times turned into the new form.
fn front(rng: &mut Rng, from: &[u8]) -> Vec<u8> {
    let Some((_, rest)) = start(from) else { return vec![rng.below(3) as u8, rng.below(4) as u8] };
    let mut log = from[..2].to_vec();
    let good: Vec<&[u8]> = records(rest).filter(|record| bad(record, Way::ToOld) == 0).collect();
    let count = if rng.percent(15) { good.len() } else { rng.below(9).min(good.len()) };
    let first = rng.below(good.len() - count + 1);
    let turn = rng.percent(30);
    for record in &good[first..first + count] {
        log.extend(if turn && record[0] == OPEN { typed(record.to_vec(), UNKNOWN) } else { record.to_vec() });
    }
    log
}

/// What stands between or behind, and whether nothing may follow.
fn piece(rng: &mut Rng) -> (Vec<u8>, bool) {
    match rng.weighted(&[20, 6, 16, 12, 34, 10]) {
        0 => (typed_open(rng), false),
        1 => (typed(open(rng), UNKNOWN), false),
        2 => (wrong_open(rng), false),
        3 => (wrong_field(rng), false),
        4 => (cut(rng), true),
        _ => (unknown(rng), rng.percent(50)),
    }
}

fn open(rng: &mut Rng) -> Vec<u8> {
    let digits: Vec<u8> = (0..rng.pick(&[0, 1, 4, 15])).map(|_| b'0' + rng.below(10) as u8).collect();
    make::open(reference(rng), rng.draw() as u32, rng.below(2) as u8, rng.below(2) as u8, &digits)
}

fn reference(rng: &mut Rng) -> Reference {
    Reference(rng.within(1, 0x7FFF) as u16)
}

/// Kind 9 with type 1 or 2.
fn typed_open(rng: &mut Rng) -> Vec<u8> {
    let number_type = rng.pick(&[1, 2]);
    typed(open(rng), number_type)
}

/// Kind 9 with a type that there is not, or with one of the three and another field wrong.
fn wrong_open(rng: &mut Rng) -> Vec<u8> {
    if rng.percent(50) {
        let number_type = rng.pick(&[3, 3, 4, 255]);
        return typed(open(rng), number_type);
    }
    let mut record = open(rng);
    spoil(rng, &mut record);
    let number_type = rng.pick(&[0, 1, 2]);
    typed(record, number_type)
}

/// A field of an event 1 that stands before the digits.
fn spoil(rng: &mut Rng, record: &mut [u8]) {
    match rng.below(4) {
        0 => record[7] = 2,
        1 => record[8] = 2,
        2 => record[9] = 16,
        _ => record[1..3].copy_from_slice(&rng.pick(&[[0, 0], [0x80, 0]])),
    }
}

/// A record of the kind with its fields right.
pub fn of_kind(rng: &mut Rng, kind: u8) -> Vec<u8> {
    let (reference, leg) = (reference(rng), rng.draw() as u32);
    match kind {
        OPEN => open(rng),
        PROGRESS => make::progress(reference, rng.pick(&[4, 10])),
        HOLD => make::hold(reference, rng.below(4) as u8),
        RELEASE => make::release(leg),
        FACILITY => make::facility(reference, &[0xA2, 0]),
        ANSWER => make::answer(leg),
        LEG_FACILITY => make::leg_facility(leg, &[0xA2, 0]),
        INFORM => make::inform(reference, &[0xA2, 0]),
        _ => typed_open(rng),
    }
}

fn good(rng: &mut Rng) -> Vec<u8> {
    let kind = rng.within(1, 8) as u8;
    of_kind(rng, kind)
}

/// A record of old kind with a field outside its range.
fn wrong_field(rng: &mut Rng) -> Vec<u8> {
    let kind = rng.pick(&[OPEN, PROGRESS, HOLD, FACILITY, LEG_FACILITY, INFORM]);
    let mut record = of_kind(rng, kind);
    let last = record.len() - 1;
    match kind {
        OPEN => spoil(rng, &mut record),
        PROGRESS | HOLD => record[3] = rng.pick(&[5, 11, 255]),
        _ => record[last] = 1,
    }
    record
}

/// A record cut right after its kind, in its last octet, or elsewhere; at times with a field wrong.
fn cut(rng: &mut Rng) -> Vec<u8> {
    let kind = rng.pick(&[1, 2, 3, 4, 5, 6, 7, 8, 9, 9]);
    let mut record = of_kind(rng, kind);
    if rng.percent(25) {
        match kind {
            9 => record[TYPE_AT] = rng.pick(&[3, 255]),
            OPEN => spoil(rng, &mut record),
            // A leg of 0 is one; a reference of 0 is none.
            _ => record[1..3].fill(0),
        }
    }
    let length = body_length(kind).unwrap_or(1);
    let kept = rng.within(2, length - 1);
    record.truncate(rng.pick(&[1, length, kept]));
    record
}

/// An unknown kind, at times in front of what would be a record.
fn unknown(rng: &mut Rng) -> Vec<u8> {
    let any = rng.within(11, 255) as u8;
    let mut octets = vec![rng.pick(&[0, 10, any])];
    if rng.percent(40) {
        octets.extend(typed_open(rng));
    }
    octets
}

pub fn spoil_options(rng: &mut Rng, log: &mut Vec<u8>) {
    match rng.below(5) {
        0 => log[0] = rng.pick(&[3, 3, 255, 4, 128]),
        1 => log[..2].copy_from_slice(&[rng.below(3) as u8, rng.pick(&[4, 5, 255])]),
        2 => log[..2].copy_from_slice(&rng.pick(&[[3, 4], [255, 255]])),
        3 => log.truncate(1),
        _ => log.clear(),
    }
}
