//! Damage to whole logs.

use crate::carrier::Carrier;
use crate::event::OPEN_TYPED;
use crate::records::TYPE_AT;
use crate::rng::Rng;

/// Damages a log in one way; `starts` says where its records begin.
pub fn damage(rng: &mut Rng, log: &mut Vec<u8>, starts: &[usize]) {
    match rng.below(9) {
        0 => flip_bits(rng, log),
        1 => cut_tail(rng, log, starts),
        2 => wrong_kind(rng, log, starts),
        3 => shift(rng, log),
        4 => listed_kind(rng, log, starts),
        5 => bad_options(rng, log),
        6 => end_at_carrier(rng, log, starts),
        7 => end_at_open(rng, log, starts),
        _ => noise(rng, log),
    }
}

fn flip_bits(rng: &mut Rng, log: &mut [u8]) {
    for _ in 0..rng.within(1, 6) {
        let place = rng.below(log.len());
        log[place] ^= 1 << rng.below(8);
    }
}

/// Cuts anywhere, or right after the kind octet of a record.
fn cut_tail(rng: &mut Rng, log: &mut Vec<u8>, starts: &[usize]) {
    let kind_only = !starts.is_empty() && rng.percent(25);
    let length = if kind_only { rng.pick(starts) + 1 } else { rng.within(2, log.len()) };
    log.truncate(length);
}

/// Ends the log at a Leg facility or an Inform: after its kind, one octet short of its end, or
/// one beyond it.
fn end_at_carrier(rng: &mut Rng, log: &mut Vec<u8>, starts: &[usize]) {
    let carrier = |start: usize| Some((start, Carrier::of(log[start])?.length()));
    let carriers: Vec<(usize, usize)> = starts.iter().filter_map(|&start| carrier(start)).collect();
    if carriers.is_empty() {
        return cut_tail(rng, log, starts);
    }
    let (start, length) = rng.pick(&carriers);
    match rng.below(5) {
        0 => log.truncate(start + 1),
        1 | 2 => log.truncate(start + length - 1),
        _ => {
            log.truncate(start + length);
            log.push(rng.below(10) as u8);
        }
    }
}

/// Ends the log at an Open with a type: after its kind, around the type, at times a wrong one, one
/// octet short of its end, or one beyond it.
fn end_at_open(rng: &mut Rng, log: &mut Vec<u8>, starts: &[usize]) {
    let typed = |start: &usize| log[*start] == OPEN_TYPED;
    let opens: Vec<usize> = starts.iter().copied().filter(typed).collect();
    if opens.is_empty() {
        return cut_tail(rng, log, starts);
    }
    let start = rng.pick(&opens);
    let place = rng.within(1, 25);
    let length = rng.pick(&[1, TYPE_AT, TYPE_AT + 1, 25, place, 26]);
    if length > TYPE_AT && length < 26 && rng.percent(25) {
        log[start + TYPE_AT] = rng.pick(&[3, 255]);
    }
    log.truncate(start + length);
    if length == 26 {
        log.push(rng.below(10) as u8);
    }
}

/// An unlisted kind at a record, or as the last octet of the log.
fn wrong_kind(rng: &mut Rng, log: &mut Vec<u8>, starts: &[usize]) {
    let kind = rng.pick(&[0, 10, 11, 0x81, 0x86, 0xFF]);
    if starts.is_empty() || rng.percent(20) {
        log.push(kind);
    } else {
        log[rng.pick(starts)] = kind;
    }
}

/// Another listed kind: from there on the records are read at the wrong places.
fn listed_kind(rng: &mut Rng, log: &mut [u8], starts: &[usize]) {
    if !starts.is_empty() {
        log[rng.pick(starts)] = rng.within(1, 9) as u8;
    }
}

/// An octet too many or one too few.
fn shift(rng: &mut Rng, log: &mut Vec<u8>) {
    let place = rng.within(2, log.len());
    if place == log.len() || rng.percent(50) {
        log.insert(place, rng.octet());
    } else {
        log.remove(place);
    }
}

fn bad_options(rng: &mut Rng, log: &mut Vec<u8>) {
    match rng.below(6) {
        0 => log[0] = bad_first(rng),
        1 | 2 => (log[0], log[1]) = (rng.below(3) as u8, bad_second(rng)),
        3 => (log[0], log[1]) = (bad_first(rng), bad_second(rng)),
        4 => log.clear(),
        _ => log.truncate(rng.pick(&[1, 1, 2])),
    }
}

fn bad_first(rng: &mut Rng) -> u8 {
    let any = rng.within(4, 254) as u8;
    rng.pick(&[3, 255, any])
}

fn bad_second(rng: &mut Rng) -> u8 {
    let any = rng.within(4, 255) as u8;
    rng.pick(&[4, 4, 4, 5, 255, any])
}

/// Good options, then octets of any value, kinds likelier than others.
fn noise(rng: &mut Rng, log: &mut Vec<u8>) {
    log.truncate(2);
    for _ in 0..rng.within(1, 200) {
        let octet = if rng.percent(50) { rng.below(10) as u8 } else { rng.octet() };
        log.push(octet);
    }
}
