//! The logs that are compared, one after another, the same for the same seed.

use crate::actions::{step, Style};
use crate::cycle;
use crate::damage::damage;
use crate::history_logs;
use crate::opens::Opens;
use crate::rng::Rng;
use crate::script::Script;

pub const LOGS: usize = 20_000;
/// So many of them go once round all LinkIds, one by each rule set.
pub const CYCLES: usize = 2;
pub const LEAST_EVENTS: u64 = 1_000_000;
pub const DEFAULT_SEED: u64 = 0x0369_0001;

/// Weights: open, progress, hold, release, answer, link, execute, explicit, pair,
/// odd component, bad field, stray, clutter, Leg facility, Inform, combine.
const STYLES: [Style; 10] = [
    // An attendant's day.
    Style { weights: [8, 14, 16, 9, 7, 6, 7, 6, 9, 3, 3, 5, 3, 5, 5, 4], opens_first: 2, length: (25, 75) },
    // Mostly transfers.
    Style { weights: [2, 4, 4, 10, 10, 2, 3, 3, 30, 1, 1, 2, 8, 12, 4, 8], opens_first: 0, length: (30, 90) },
    // A full board.
    Style {
        weights: [20, 12, 10, 6, 4, 8, 5, 5, 6, 3, 3, 14, 2, 5, 12, 2],
        opens_first: 64,
        length: (90, 140),
    },
    // LinkIds until none is left.
    Style {
        weights: [10, 6, 8, 6, 2, 40, 3, 14, 4, 2, 1, 4, 2, 2, 3, 2],
        opens_first: 18,
        length: (50, 100),
    },
    // Components of every sort.
    Style { weights: [4, 6, 6, 2, 2, 8, 4, 4, 3, 60, 2, 2, 1, 6, 6, 2], opens_first: 3, length: (30, 60) },
    // Fields out of range and events that come at the wrong time.
    Style { weights: [6, 8, 8, 4, 6, 4, 4, 4, 6, 4, 30, 30, 2, 8, 8, 4], opens_first: 3, length: (30, 60) },
    // Short ones.
    Style { weights: [8, 10, 10, 5, 5, 6, 6, 6, 10, 6, 4, 6, 6, 8, 8, 6], opens_first: 0, length: (0, 20) },
    // Subaddresses of joined parties.
    Style { weights: [4, 4, 4, 5, 8, 2, 2, 2, 10, 1, 1, 2, 2, 60, 0, 1], opens_first: 1, length: (30, 80) },
    // Transfers inside private exchanges.
    Style { weights: [6, 8, 12, 4, 2, 2, 2, 2, 4, 1, 1, 2, 1, 0, 70, 1], opens_first: 3, length: (30, 80) },
    // Two calls in whatever states, asked to be transferred by name.
    Style { weights: [3, 6, 8, 5, 14, 4, 6, 8, 4, 1, 1, 3, 2, 4, 4, 50], opens_first: 1, length: (30, 90) },
];

/// The place of the last style.
const COMBINING: usize = STYLES.len() - 1;

/// Both options: six ways by European rules, then six by American.
const OPTIONS: [(u8, u8); 12] =
    [(1, 1), (1, 0), (0, 0), (0, 1), (2, 1), (2, 0), (1, 3), (1, 2), (0, 2), (0, 3), (2, 3), (2, 2)];
/// Their weights, where the style is that of combined calls and where it is another.
const COMBINED: [u32; 12] = [12, 6, 1, 1, 8, 4, 22, 18, 3, 3, 16, 12];
const OTHERWISE: [u32; 12] = [42, 21, 11, 11, 16, 10, 9, 5, 4, 4, 9, 5];

const OPENS: [Opens; 3] = [Opens::Old, Opens::Moved, Opens::Any];

/// All logs of a seed, and those that no seed changes.
pub fn all(seed: u64) -> impl Iterator<Item = Vec<u8>> {
    Logs::new(seed).chain(history_logs::logs())
}

pub struct Logs {
    rng: Rng,
    made: usize,
}

impl Logs {
    pub fn new(seed: u64) -> Logs {
        Logs { rng: Rng::new(seed), made: 0 }
    }
}

impl Iterator for Logs {
    type Item = Vec<u8>;

    /// The long logs come first, then the many.
    fn next(&mut self) -> Option<Vec<u8>> {
        if self.made == LOGS {
            return None;
        }
        self.made += 1;
        Some(match self.made {
            1 => cycle::log(&mut self.rng, (1, 1), Opens::Old),
            CYCLES => cycle::log(&mut self.rng, (2, 3), Opens::Any),
            _ => steered(&mut self.rng),
        })
    }
}

/// One log in one of the styles, damaged at times.
pub fn steered(rng: &mut Rng) -> Vec<u8> {
    let which = rng.weighted(&[30, 20, 10, 12, 12, 10, 8, 20, 28, 40]);
    let style = &STYLES[which];
    let weights = if which == COMBINING { &COMBINED } else { &OTHERWISE };
    let (subscribed, alerting) = OPTIONS[rng.weighted(weights)];
    let damaged = rng.percent(14);
    let length = rng.within(style.length.0, style.length.1);
    let opens = OPENS[rng.weighted(&[22, 14, 64])];
    let mut script = Script { opens, ..Script::new(rng, subscribed, alerting) };
    for _ in 0..style.opens_first {
        let direction = script.rng.below(2) as u8;
        script.open(direction);
    }
    while script.events() < length {
        step(&mut script, style);
    }
    let Script { mut log, starts, .. } = script;
    if damaged {
        damage(rng, &mut log, &starts);
    }
    log
}
