//! The program that moves logs, compared with the engine's own moving: standard output octet by octet,
//! standard error, and exit status.

use crate::compare::hex;
use crate::each_move;
use crate::ended::Ended;
use crate::moved;
use crate::mover;
use crate::moving::{judge, records, Way};
use crate::program::Feed;
use crate::runner::Input;
use crate::runs::{Run, Runs, Task};
use crate::seen_run::{InputSeen, RunSeen};
use crate::tally::Tally;

const LOGS: usize = 2_000;
/// Logs in small parts take long, and are few.
const IN_PARTS: usize = 60;

impl Task for Way {
    const FILE: &'static str = "a log";

    fn word(self) -> &'static str {
        Way::word(self)
    }

    fn second(self) -> bool {
        self == Way::ToOld
    }

    fn on_input(self, log: &[u8]) -> Ended {
        mover::run(&[self.word()], log)
    }

    fn done(self, log: &[u8]) -> Ended {
        mover::moved(log, self)
    }
}

/// Runs the program over all logs of a seed.
pub fn against(path: &str, seed: u64) -> Result<Tally, String> {
    let mut runs = Runs::<Way>::new(path, "moved logs", seed, Tally::of_moves())?;
    let each = each_move::logs(&mut runs.rng);
    for number in 0..LOGS {
        let log = each.get(number).cloned().unwrap_or_else(|| runs.played_or_near(35));
        runs.both_ways(&log, number)?;
    }
    runs.odd()?;
    runs.finished()
}

impl Runs<Way> {
    fn both_ways(&mut self, log: &[u8], number: usize) -> Result<(), String> {
        let fault = |what| format!("log {}\nthe engine is at fault\n{what}", hex(log));
        moved::watch(log, &mut self.rng, &mut self.tally).map_err(fault)?;
        self.tally.logs += 1;
        self.tally.events += records(log.get(2..).unwrap_or(&[])).count() as u64;
        Way::BOTH.into_iter().try_for_each(|way| self.either(log, way, number))
    }

    /// From standard input or by a file's name.
    fn either(&mut self, log: &[u8], way: Way, number: usize) -> Result<(), String> {
        let by_name = number % 3 == 1 || (number >= IN_PARTS && self.rng.percent(5));
        self.outcome(log, way, by_name);
        if by_name {
            return self.by_name(log, way, Input::Nothing);
        }
        if number >= IN_PARTS {
            return self.from_input(log, way, Feed::Whole);
        }
        let refused = judge(log, way).is_err();
        self.tally.add(if refused { InputSeen::PartsRefused } else { InputSeen::Parts });
        self.from_input(log, way, Feed::Parts(if number.is_multiple_of(3) { 7 } else { 1 }))
    }

    /// Tallies what has to come of a log.
    fn outcome(&mut self, log: &[u8], way: Way, by_name: bool) {
        let run = Run::of(way, by_name);
        let tally = &mut self.tally;
        let (returned, record) = match judge(log, way) {
            Ok(length) => {
                tally.add((run, RunSeen::Moved));
                tally.add_if(length != log.len(), (run, RunSeen::Turned));
                tally.add_if(log[0] == 2, (run, RunSeen::ExplicitOnly));
                return tally.add_if(length == 2, (run, RunSeen::Alone));
            }
            Err(refusal) => (refusal.returned, refusal.record),
        };
        match (returned, record) {
            (_, 0) => tally.add((run, RunSeen::Options)),
            (3, _) => tally.add((run, RunSeen::Cut)),
            (4, _) => tally.add((run, RunSeen::Unknown)),
            (5, _) => tally.add((run, RunSeen::Field)),
            _ => tally.add(if by_name { InputSeen::TypedFile } else { InputSeen::Typed }),
        }
        tally.add_if(record == 1, (run, RunSeen::First));
        tally.add_if((10..100).contains(&record), (run, RunSeen::Figures2));
        tally.add_if((100..1000).contains(&record), (run, RunSeen::Figures3));
    }
}
