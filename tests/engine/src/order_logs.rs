//! The logs that are compared in either order: those that are played, with two events beside each other put
//! between their records.

use crate::couples::Couples;
use crate::exchange::Exchange;
use crate::logs::steered;
use crate::moving::{records, whole_records};
use crate::play::start;
use crate::rng::Rng;
use crate::stepped::unrelated;

/// One log whose options are good, with one place at least.
pub fn exchange(rng: &mut Rng) -> Exchange {
    loop {
        let log = steered(rng);
        let Some((_, rest)) = start(&log) else { continue };
        let log = between(rng, &log, rest);
        let places = places(&log);
        if !places.is_empty() {
            return Exchange { places: some(rng, &places), log };
        }
    }
}

/// What is cut or of an unknown kind stays at the end.
fn between(rng: &mut Rng, log: &[u8], rest: &[u8]) -> Vec<u8> {
    let often = rng.pick(&[3, 6, 12]);
    let mut couples = Couples::new(rng, log[0], log[1]);
    if couples.percent(5) {
        couples.couple();
    }
    let mut read = 2;
    for record in whole_records(rest) {
        couples.event(record);
        if couples.percent(often) {
            couples.couple();
        }
        read += record.len();
    }
    if couples.percent(40) {
        couples.couple();
    }
    let mut made = couples.script.log;
    made.extend(&log[read..]);
    made
}

/// Wherever a record may be exchanged with the next.
pub fn places(log: &[u8]) -> Vec<usize> {
    let records: Vec<&[u8]> = records(&log[2..]).collect();
    let beside = records.windows(2).enumerate();
    beside.filter(|(_, two)| unrelated(two[0], two[1])).map(|(place, _)| place).collect()
}

/// At least one of them, none of them beside another.
fn some(rng: &mut Rng, places: &[usize]) -> Vec<usize> {
    let chance = rng.pick(&[100, 70, 25]);
    let mut some: Vec<usize> = Vec::new();
    for &place in places {
        if some.last().is_none_or(|&last| last + 1 < place) && rng.percent(chance) {
            some.push(place);
        }
    }
    if some.is_empty() {
        some.push(rng.pick(places));
    }
    some
}
