//! Logs that are moved whatever the seed: each kind cut at each place, each pair of options, those next to
//! them, and first bad records whose numbers have one figure to four.

use crate::board::Reference;
use crate::near_move::of_kind;
use crate::records::{open, release, typed};
use crate::rng::Rng;

pub fn logs(rng: &mut Rng) -> Vec<Vec<u8>> {
    let mut logs = options();
    for kind in 1..=9 {
        let record = of_kind(rng, kind);
        logs.extend(
            (1..record.len()).map(|length| [&[1, 1][..], &some_good(rng), &record[..length]].concat()),
        );
    }
    for place in [1, 9, 10, 99, 100, 101, 999, 1_000] {
        let good = release(7).repeat(place - 1);
        let bad = [&[4, 0, 0][..], &[0], &[2, 0, 0, 4], &typed(open(Reference(1), 7, 0, 0, b"21"), 1)];
        logs.extend(bad.iter().map(|bad| [&[0, 2], good.as_slice(), bad].concat()));
    }
    logs
}

/// All options and bad ones next to them, alone and with an Open of either kind.
fn options() -> Vec<Vec<u8>> {
    let open = open(Reference(1), 7, 0, 0, b"21");
    let behind = [vec![], open.clone(), typed(open, 0)];
    let good = (0..=2).flat_map(|first| (0..=3).map(move |second| [first, second]));
    let bad = [[0, 4], [1, 4], [2, 4], [2, 5], [3, 0], [3, 3], [255, 1], [3, 4]];
    let options: Vec<[u8; 2]> = good.chain(bad).collect();
    options.iter().flat_map(|options| behind.iter().map(|behind| [&options[..], behind].concat())).collect()
}

/// At most three good records.
fn some_good(rng: &mut Rng) -> Vec<u8> {
    let count = rng.below(4);
    (0..count)
        .flat_map(|_| {
            let kind = rng.within(1, 8) as u8;
            of_kind(rng, kind)
        })
        .collect()
}
