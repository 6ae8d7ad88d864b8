//! Scripts that no seed changes: the small ones, each end of an item, names of all octets, and many items.

use crate::attended::LARGEST;
use crate::board::Reference;
use crate::event::body_length;
use crate::items::{name, pin};
use crate::near_move::of_kind;
use crate::records::{execute, facility, hold, open, progress, release};
use crate::rng::Rng;

const IDENTIFIER: [u8; 3] = [2, 1, 5];

/// An Open of a call whose reference is one more than that.
fn opened(number: u16, leg: u32) -> Vec<u8> {
    open(Reference(number + 1), leg, 0, 0, b"21")
}

/// Good options, and items behind them.
fn of(items: &[Vec<u8>]) -> Vec<u8> {
    [&[1, 1], &items.concat()[..]].concat()
}

/// Legs from the last of all downward, all of ten figures.
fn high(number: u16) -> u32 {
    u32::MAX - u32::from(number)
}

pub fn scripts(rng: &mut Rng) -> Vec<Vec<u8>> {
    let mut scripts = options();
    scripts.extend(ends(rng));
    scripts.extend(unknown());
    scripts.extend(names());
    scripts.extend(lines());
    scripts.extend(wide());
    scripts.push(full_board());
    scripts.extend(many());
    scripts
}

fn options() -> Vec<Vec<u8>> {
    let good = (0..=2).flat_map(|first| (0..=3).map(move |second| [first, second]));
    let bad = [[0, 4], [1, 4], [2, 4], [2, 255], [3, 0], [3, 3], [4, 1], [255, 1], [3, 4], [255, 255]];
    let mut scripts: Vec<Vec<u8>> = vec![vec![], vec![0], vec![1], vec![255]];
    for options in good.chain(bad) {
        scripts.push(options.to_vec());
        scripts.push([&options[..], &pin(0)].concat());
        scripts.push([&options[..], &opened(0, 0), &pin(0), &name(b"Ward, Wing B", b"21")].concat());
    }
    scripts
}

/// Each item cut at each place, first or with a line shown.
fn ends(rng: &mut Rng) -> Vec<Vec<u8>> {
    let mut items = vec![pin(7), name(b"Wa,", b"21"), name(b"", b""), name(b"W", b"")];
    items.extend((1..=9).map(|kind| of_kind(rng, kind)));
    let mut scripts = Vec::new();
    for item in items {
        for length in 1..item.len() {
            scripts.push(of(&[opened(0, 7), pin(7), item[..length].to_vec()]));
        }
        scripts.push(of(&[item[..item.len() - 1].to_vec()]));
    }
    // A field is wrong before the cut, a reference or a direction.
    scripts.extend([[2, 0, 0].as_slice(), &[9, 0, 1, 0, 0, 0, 7, 2]].map(|record| of(&[record.to_vec()])));
    scripts
}

/// Each kind that there is not, alone or in front of a pin.
fn unknown() -> Vec<Vec<u8>> {
    let kinds = (10..=254).filter(|&kind| body_length(kind).is_none());
    kinds
        .flat_map(|kind| {
            let front = [opened(0, 7), pin(7), vec![kind]];
            [of(&[vec![kind]]), of(&front), of(&[front.concat(), pin(7)])]
        })
        .collect()
}

/// Names with each octet alone, in front of a comma and behind one, and lines of 255 octets with a comma at each place.
fn names() -> Vec<Vec<u8>> {
    let (mut alone, mut before, mut behind) = (Vec::new(), Vec::new(), Vec::new());
    for octet in 0..=255 {
        for digits in [b"".as_slice(), b"21"] {
            alone.push(name(&[octet], digits));
            before.push(name(&[octet, b',', b'x'], digits));
            behind.push(name(&[b',', octet], digits));
        }
        alone.push(name(b"", &[octet]));
    }
    let places: Vec<Vec<u8>> = (0..=254)
        .map(|place| {
            let mut line = [b'a'; 255];
            line[place] = b',';
            name(&line, b"0")
        })
        .collect();
    let mut scripts = vec![of(&alone), of(&before), of(&behind)];
    scripts.extend(places.chunks(200).map(of));
    scripts
}

/// Seventeen legs, of which sixteen are shown and those on two lines go: each two of the lines.
fn lines() -> Vec<Vec<u8>> {
    let mut scripts = Vec::new();
    for first in 0..16 {
        for second in first + 1..16 {
            let mut items: Vec<Vec<u8>> = (0..17)
                .flat_map(|number| [opened(number, 100 + u32::from(number)), pin(100 + u32::from(number))])
                .collect();
            items.extend([release(100 + second), release(100 + first)]);
            items.extend([opened(0x4000, 100 + second), pin(116), pin(100 + second), pin(100 + first)]);
            scripts.push(of(&items));
        }
    }
    scripts
}

/// Sixteen lines of legs of ten figures: with the user, or joined in pairs of which one alerts.
fn wide() -> [Vec<u8>; 2] {
    let mut items: Vec<Vec<u8>> =
        (0..17).flat_map(|number| [opened(number, high(number)), pin(high(number))]).collect();
    let users = of(&items);
    for number in (0..16).step_by(2) {
        let (held, other) = (Reference(number + 1), Reference(number + 2));
        items.extend([progress(held, 10), hold(held, 1), hold(held, 2), progress(other, 4)]);
        items.push(facility(other, &execute(&IDENTIFIER)));
    }
    [users, of(&items)]
}

/// Each leg of a full board pinned, and one that does not fit on it.
fn full_board() -> Vec<u8> {
    let mut items: Vec<Vec<u8>> = (0..65).map(|number| opened(number, high(number))).collect();
    items.extend((0..65).rev().map(|number| pin(high(number))));
    of(&items)
}

/// As many items as a script can hold: the shortest, names; and pins with all lines taken.
fn many() -> [Vec<u8>; 3] {
    let mut full: Vec<Vec<u8>> =
        (0..17).flat_map(|number| [opened(number, high(number)), pin(high(number))]).collect();
    let pins = (0..12_500).map(|number| pin(high(number % 20)));
    full.extend(pins);
    let names = vec![name(b"", b""); (LARGEST - 2) / 3];
    let four: Vec<Vec<u8>> = (0..1_200).map(|_| progress(Reference(1), 4)).collect();
    [of(&full), of(&names), of(&four)]
}
