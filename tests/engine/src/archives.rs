//! The program that packs and unpacks logs, compared with the engine's own: standard output octet by octet,
//! standard error, and exit status.

use crate::archive::{Work, LARGEST_LOG};
use crate::archived::{self, without_bad};
use crate::archiver;
use crate::compare::hex;
use crate::ended::Ended;
use crate::exact::{exactly, long};
use crate::moving::{records, Refusal};
use crate::program::Feed;
use crate::runner::Input;
use crate::runs::{Run, Runs, Task};
use crate::seen_archive_run::{ArchiveInputSeen, ArchiveRunSeen};
use crate::tally::Tally;
use crate::{each_archive, each_move, near_archive};

const LOGS: usize = 20_000;
/// What is fed in small parts takes long, and is little.
const IN_PARTS: usize = 30;

impl Task for Work {
    const FILE: &'static str = "octets";

    fn word(self) -> &'static str {
        Work::word(self)
    }

    fn second(self) -> bool {
        self == Work::Unpack
    }

    fn on_input(self, octets: &[u8]) -> Ended {
        archiver::run(&[self.word()], octets)
    }

    fn done(self, octets: &[u8]) -> Ended {
        archiver::done(octets, self)
    }
}

/// Runs the program over all logs of a seed and their archives.
pub fn against(path: &str, seed: u64) -> Result<Tally, String> {
    let mut runs = Runs::<Work>::new(path, "archives of logs", seed, Tally::of_archives())?;
    let rng = &mut runs.rng;
    let (logs, archives) =
        ([each_archive::logs(rng), each_move::logs(rng)].concat(), each_archive::archives(rng));
    // Those that any seed has come last, so that what is fed in small parts is of the seed.
    let (first_log, first_archive) = (LOGS - logs.len(), LOGS - archives.len());
    for number in 0..LOGS {
        let log = number.checked_sub(first_log).map_or_else(|| runs.some_log(), |place| logs[place].clone());
        let good = without_bad(&log);
        let damaged = match number.checked_sub(first_archive) {
            Some(place) => archives[place].clone(),
            None => near_archive::archive(&mut runs.rng, good.as_deref().unwrap_or(&[1, 1])),
        };
        runs.all_ways(&log, good.as_deref(), &damaged, number)?;
    }
    runs.odd()?;
    runs.finished()
}

impl Runs<Work> {
    fn some_log(&mut self) -> Vec<u8> {
        if self.rng.percent(3) {
            let length = self.rng.within(4_096, LARGEST_LOG);
            return exactly(&long(&mut self.rng, length), length);
        }
        self.played_or_near(50)
    }

    /// The log packed, where it has bad records without them too, the archive unpacked, and a damaged one.
    fn all_ways(
        &mut self,
        log: &[u8],
        good: Option<&[u8]>,
        damaged: &[u8],
        number: usize,
    ) -> Result<(), String> {
        self.tally.logs += 1;
        self.tally.events += records(log.get(2..).unwrap_or(&[])).count() as u64;
        self.either(log, Work::Pack, number)?;
        if let Some((good, Ok(archive))) = good.map(|good| (good, Work::Pack.done(good))) {
            if good != log {
                self.either(good, Work::Pack, number)?;
            }
            self.either(&archive, Work::Unpack, number)?;
        }
        self.either(damaged, Work::Unpack, number)
    }

    /// From standard input or by a file's name.
    fn either(&mut self, octets: &[u8], work: Work, number: usize) -> Result<(), String> {
        let by_name = number % 3 == 1 || (number >= IN_PARTS && self.rng.percent(5));
        if by_name || number >= IN_PARTS {
            return self.run(octets, work, by_name);
        }
        let refused = self.watched(octets, work, false)?.is_some();
        let seen = if refused { ArchiveInputSeen::PartsRefused } else { ArchiveInputSeen::Parts };
        self.tally.add((work, seen));
        self.from_input(octets, work, Feed::Parts(if number.is_multiple_of(3) { 7 } else { 1 }))
    }

    pub fn run(&mut self, octets: &[u8], work: Work, by_name: bool) -> Result<(), String> {
        self.watched(octets, work, by_name)?;
        if by_name {
            self.by_name(octets, work, Input::Nothing)
        } else {
            self.from_input(octets, work, Feed::Whole)
        }
    }

    /// Tallies what has to come of it and holds the engine to it; gives the refusal.
    fn watched(&mut self, octets: &[u8], work: Work, by_name: bool) -> Result<Option<Refusal>, String> {
        use ArchiveRunSeen::*;
        let fault = |what| format!("octets {}\nthe engine is at fault\n{what}", hex(octets));
        archived::watch(octets, work, &mut self.rng, &mut self.tally).map_err(fault)?;
        let (run, tally) = (Run::of(work, by_name), &mut self.tally);
        let refusal = work.done(octets).err();
        let Some(Refusal { returned, record }) = refusal else {
            tally.add((run, Done));
            tally.add_if(octets.len() <= 6 && octets[2..] == [0; 4][..octets.len() - 2], (run, Alone));
            return Ok(None);
        };
        tally.add(match (returned, record) {
            (5, 0) => (run, Options),
            (3, _) => (run, Cut),
            (4, _) => (run, Unknown),
            _ => (run, Field),
        });
        let figures = match record {
            1 => Some(First),
            10..100 => Some(Figures2),
            100..1_000 => Some(Figures3),
            1_000..10_000 => Some(Figures4),
            10_000.. => Some(Figures5),
            _ => None,
        };
        tally.add_each(figures.map(|seen| (run, seen)));
        Ok(refusal)
    }
}
