//! What occurs where a log is not packed and an archive not unpacked alike.

use crate::archive::Work;
use crate::archive_faults::bad_options;
use crate::seen_archive::RefusedSeen;
use crate::tally::Tally;

/// Whether there are too many octets.
pub fn options_or_size(octets: &[u8], largest: usize, work: Work, tally: &mut Tally) -> bool {
    use RefusedSeen::*;
    let seen = match octets.len().checked_sub(largest) {
        Some(1) => LargerByOne,
        Some(2..) => Larger,
        _ => match *octets {
            [] => NoOctets,
            [_] => OneOctet,
            [2, second, ..] if second > 3 => Second2,
            [0 | 1, ..] => Second,
            [3, 0..=3, ..] => First3,
            [0xFF, 0..=3, ..] => FirstFF,
            [_, 0..=3, ..] => FirstElse,
            _ => Both,
        },
    };
    tally.add((work, seen));
    let larger = octets.len() > largest;
    tally.add_if(larger && bad_options(octets), (work, LargerOptions));
    larger
}

/// The number of the bad record among so many that are looked at.
pub fn numbers(number: u64, count: usize, work: Work, tally: &mut Tally) {
    use RefusedSeen::*;
    tally.add_if(number == 1, (work, FirstRecord));
    tally.add_if(number > 1 && number == count as u64, (work, LastRecord));
    let figures = match number {
        0..10 => return,
        10..100 => Figures2,
        100..1_000 => Figures3,
        1_000..10_000 => Figures4,
        _ => Figures5,
    };
    tally.add((work, figures));
}

pub fn unknown(kind: u8, work: Work, tally: &mut Tally) {
    tally.add(match kind {
        0 => (work, RefusedSeen::Kind0),
        10 => (work, RefusedSeen::Kind10),
        _ => (work, RefusedSeen::KindElse),
    });
}

pub fn field(kind: u8, work: Work, tally: &mut Tally) {
    use RefusedSeen::*;
    let seen = match kind {
        1 => Field1,
        2 => Field2,
        3 => Field3,
        5 => Field5,
        7 => Field7,
        8 => Field8,
        _ => Field9,
    };
    tally.add((work, seen));
}
