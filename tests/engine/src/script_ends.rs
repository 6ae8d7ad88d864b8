//! Ends of scripts: items that are cut, and kinds that there are not.

use crate::items;
use crate::names;
use crate::near_move::of_kind;
use crate::rng::Rng;

/// Any whole item.
pub fn item(rng: &mut Rng) -> Vec<u8> {
    match rng.below(4) {
        0 => items::pin(rng.below(200) as u32),
        1 => name(rng),
        _ => {
            let kind = rng.within(1, 9) as u8;
            of_kind(rng, kind)
        }
    }
}

fn name(rng: &mut Rng) -> Vec<u8> {
    let (line, digits) = names::name(rng);
    items::name(&line, &digits)
}

/// Ends a script in its midst or behind its items; `starts` says where they begin.
pub fn end(rng: &mut Rng, script: &mut Vec<u8>, starts: &[usize]) {
    match rng.weighted(&[25, 12, 20, 15, 12, 10, 6]) {
        0 => cut_within(rng, script, starts),
        1 => cut(rng, script, items::pin(0)),
        2 => {
            let item = name(rng);
            cut(rng, script, item);
        }
        3 => {
            let kind = rng.within(1, 9) as u8;
            let record = of_kind(rng, kind);
            cut(rng, script, record);
        }
        4 => unknown_behind(rng, script),
        5 => unknown_within(rng, script, starts),
        _ => script.extend((0..rng.within(1, 60)).map(|_| rng.octet())),
    }
}

/// At an item: behind its first octet, in front of its last, or anywhere.
fn cut_within(rng: &mut Rng, script: &mut Vec<u8>, starts: &[usize]) {
    if starts.is_empty() {
        return;
    }
    let place = rng.below(starts.len());
    let end = starts.get(place + 1).copied().unwrap_or(script.len());
    let (first, last) = (starts[place] + 1, end.max(starts[place] + 2) - 1);
    let length = rng.within(first, last);
    script.truncate(rng.pick(&[first, last, length]));
}

/// Behind the items, without its last octets.
fn cut(rng: &mut Rng, script: &mut Vec<u8>, item: Vec<u8>) {
    let any = rng.within(1, item.len() - 1);
    let length = rng.pick(&[1, 2.min(item.len() - 1), item.len() - 1, any]);
    script.extend(&item[..length]);
}

fn unknown(rng: &mut Rng) -> u8 {
    let any = rng.within(10, 254) as u8;
    rng.pick(&[10, 0x80, 0xFE, any])
}

/// As the last octet, or in front of items that are read no more.
fn unknown_behind(rng: &mut Rng, script: &mut Vec<u8>) {
    script.push(unknown(rng));
    for _ in 0..rng.below(3) {
        script.extend(item(rng));
    }
}

fn unknown_within(rng: &mut Rng, script: &mut [u8], starts: &[usize]) {
    if !starts.is_empty() {
        script[rng.pick(starts)] = unknown(rng);
    }
}
