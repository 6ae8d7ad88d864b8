//! Which two events are exchanged: what they are and return, and how the calls that they name stand to each other.

use crate::board::{Call, Reference};
use crate::couple::Couple;
use crate::event::PROGRESS;
use crate::notice_rows::{absent, accepted};
use crate::seen_couple::CoupleSeen::{self, *};
use crate::seen_couple::StandSeen::{self, *};
use crate::seen_couple::{Came, SecondSeen, Stand};
use crate::stepped::{permitted, step};
use crate::tally::Tally;

pub fn notice(couple: &Couple, tally: &mut Tally) {
    let came = [0, 1].map(|second| came(couple.two()[second], couple.returned()[second]));
    tally.add((came[0], SECOND[came[1] as usize]));
    for (second, call) in couple.calls().into_iter().enumerate() {
        tally.add_each(call.map(|call| (Stand::of(call), STANDS[second][which(couple.two()[second])])));
    }
    let rules = couple.rules();
    tally.add_each(apart(couple).into_iter().map(|seen| (rules, seen)));
    tally.add_each(absent(couple).into_iter().map(|seen| (rules, seen)));
    if let (true, [Some(first), Some(second)]) = (couple.accepted(), couple.rows()) {
        tally.add_each(accepted(couple, first, second).into_iter().map(|seen| (rules, seen)));
    }
}

const SECOND: [SecondSeen; 6] = [
    SecondSeen::Progress0,
    SecondSeen::Progress9,
    SecondSeen::Progress11,
    SecondSeen::Hold0,
    SecondSeen::Hold9,
    SecondSeen::Hold11,
];

const STANDS: [[StandSeen; 6]; 2] = [
    [First4, First10, FirstIdle, FirstRequest, FirstHeld, FirstRetrieve],
    [Second4, Second10, SecondIdle, SecondRequest, SecondHeld, SecondRetrieve],
];

fn came(record: &[u8], returned: u8) -> Came {
    match (record[0], returned) {
        (PROGRESS, 0) => Came::Progress0,
        (PROGRESS, 9) => Came::Progress9,
        (PROGRESS, _) => Came::Progress11,
        (_, 0) => Came::Hold0,
        (_, 9) => Came::Hold9,
        _ => Came::Hold11,
    }
}

/// Its place among the six events that there are.
fn which(record: &[u8]) -> usize {
    match record {
        [PROGRESS, _, _, 4] => 0,
        [PROGRESS, ..] => 1,
        _ => 2 + record[3] as usize,
    }
}

/// What the references have in common, and what the two would come to on one of them.
fn apart(couple: &Couple) -> Vec<CoupleSeen> {
    let ([Reference(first), Reference(second)], [one, other]) = (couple.references, couple.two());
    let (accepted, differ) = (couple.returned().map(|returned| returned == 0), first ^ second);
    let mut seen = Vec::new();
    if differ == 0x8000 {
        seen.push(match couple.calls().map(|call| call.is_some()) {
            [true, true] => TwinsBoth,
            [true, false] => TwinsFirst,
            [false, true] => TwinsSecond,
            [false, false] => TwinsNone,
        });
        seen.extend(couple.accepted().then_some(TwinsAccepted));
    }
    seen.extend((differ != 0x8000 && differ.is_power_of_two()).then_some(OneBit));
    seen.extend((couple.accepted() && differ < 256).then_some(HighOctet));
    seen.extend((couple.accepted() && differ % 256 == 0).then_some(LowOctet));
    if (one[0], one[3]) == (other[0], other[3]) {
        match accepted {
            [true, true] => seen.push(SameButReference),
            [true, false] | [false, true] => seen.push(SameOtherwise),
            _ => {}
        }
    }
    if couple.calls()[0].is_some_and(|call| mixed(call, one, other)) {
        seen.extend(match accepted {
            [true, true] => Some(Mixed),
            [true, false] | [false, true] => Some(MixedRefused),
            _ => None,
        });
    }
    seen
}

/// Whether two events of one call would return otherwise in the other order.
fn mixed(call: &Call, one: &[u8], other: &[u8]) -> bool {
    let both = |first: &[u8], second: &[u8]| {
        let (good, mut call) = (permitted(call, first), *call);
        if good {
            step(&mut call, first);
        }
        (good, permitted(&call, second))
    };
    let ((a, b), (c, d)) = (both(one, other), both(other, one));
    (a, b) != (d, c)
}
