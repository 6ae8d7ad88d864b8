//! Archives that miss being unpacked in a single point or in two, and at times in none.

use crate::archive::{regrouped, COUNT};
use crate::moving::records;
use crate::near_move::{of_kind, spoil_options};
use crate::rng::Rng;
use crate::wrong_field;

/// Where the kinds begin.
const KINDS: usize = 2 + COUNT;

/// Made of a log without bad records: of all of them or a few, some with a wrong field.
pub fn archive(rng: &mut Rng, log: &[u8]) -> Vec<u8> {
    let mut list: Vec<Vec<u8>> = records(&log[2..]).map(<[u8]>::to_vec).collect();
    if rng.percent(70) {
        let most = rng.below(9);
        let first = rng.below(list.len() + 1);
        list.drain(..first);
        list.truncate(most);
    }
    let wrong = rng.pick(&[0, 0, 0, 1, 1, 2, 3]);
    for _ in 0..wrong {
        let place = rng.below(list.len() + 1);
        list.insert(place, wrong_field::any(rng));
    }
    let slices: Vec<&[u8]> = list.iter().map(Vec::as_slice).collect();
    let mut archive = regrouped([log[0], log[1]], &slices);
    let least = usize::from(wrong == 0);
    for _ in 0..least + rng.weighted(&[70, 30]) {
        damage(rng, &mut archive, list.len());
    }
    archive
}

/// In one point, where an archive of so many records still has kinds.
fn damage(rng: &mut Rng, archive: &mut Vec<u8>, count: usize) {
    if archive.len() < KINDS + count {
        return;
    }
    match rng.weighted(&[9, 7, 18, 14, 12, 14, 14, 8, 4]) {
        0 => spoil_options(rng, archive),
        1 => archive.truncate(rng.below(8)),
        2 => other_count(rng, archive, count),
        3 => unknown_kinds(rng, archive, count),
        4 => other_kinds(rng, archive, count),
        5 => fewer(rng, archive, count),
        6 => more(rng, archive),
        7 => other_octets(rng, archive),
        _ => {}
    }
}

fn other_count(rng: &mut Rng, archive: &mut [u8], count: usize) {
    let (right, there) = (count as u32, (archive.len() - KINDS) as u32);
    let any = rng.draw() as u32;
    let count = match rng.below(10) {
        0 => right + 1,
        1 => right.saturating_sub(1),
        2 => there,
        3 => there + 1,
        4 => right + (1 << 24),
        5 => right + (1 << 16),
        6 => u32::MAX,
        7 => u32::MAX - rng.within(1, 79) as u32,
        8 => (1 << 31) + right,
        _ => rng.pick(&[0, right + 2, there + 2, there + 69, 0x00FF_FFFF, any]),
    };
    archive[2..KINDS].copy_from_slice(&count.to_be_bytes());
}

fn unknown_kinds(rng: &mut Rng, archive: &mut [u8], count: usize) {
    if count == 0 {
        return;
    }
    let kinds = &mut archive[KINDS..KINDS + count];
    let any = rng.within(11, 255) as u8;
    match rng.below(6) {
        0 => kinds.fill(rng.pick(&[0, 10, any])),
        1 => kinds[0] = rng.pick(&[0, 10, any]),
        2 => kinds[count - 1] = rng.pick(&[0, 10, any]),
        _ => {
            for _ in 0..rng.within(1, 2) {
                kinds[rng.below(count)] = rng.pick(&[0, 10, any]);
            }
        }
    }
}

/// A known kind in place of another, or two of them exchanged: the bodies as many as before or not.
fn other_kinds(rng: &mut Rng, archive: &mut [u8], count: usize) {
    if count == 0 {
        return;
    }
    let kinds = &mut archive[KINDS..KINDS + count];
    let place = rng.below(count);
    match rng.below(3) {
        0 => kinds[place] = rng.within(1, 9) as u8,
        1 => kinds.swap(place, rng.below(count)),
        _ => {
            kinds[place] = match kinds[place] {
                2 => 3,
                3 => 2,
                4 => 6,
                6 => 4,
                kind => kind,
            }
        }
    }
}

fn fewer(rng: &mut Rng, archive: &mut Vec<u8>, count: usize) {
    let bodies = archive.len() - KINDS - count;
    let any = rng.below(bodies + 1);
    let less = rng.pick(&[1, 1, 1, 2, 3, 4, 24, bodies, any]);
    archive.truncate(archive.len() - less.min(bodies));
}

/// Noise at the end, or the body of one more record.
fn more(rng: &mut Rng, archive: &mut Vec<u8>) {
    let longer = rng.within(2, 80);
    match rng.below(4) {
        0 | 1 => archive.push(rng.pick(&[0, 0, 1, 255])),
        2 => archive.extend((0..longer).map(|_| rng.octet())),
        _ => {
            let kind = rng.within(1, 9) as u8;
            archive.extend(&of_kind(rng, kind)[1..]);
        }
    }
}

/// One of them, or a few, at any place but that of the count.
fn other_octets(rng: &mut Rng, archive: &mut [u8]) {
    for _ in 0..rng.within(1, 3) {
        let place = rng.below(archive.len());
        if !(2..KINDS).contains(&place) {
            archive[place] = rng.pick(&[0, 1, 2, 255, archive[place] ^ 0x80, archive[place] ^ 1]);
        }
    }
}
