//! What the runs of a program of two words, compared with the engine's own, have in common.

use std::marker::PhantomData;

use crate::ended::Ended;
use crate::logs::steered;
use crate::near_move;
use crate::program::Feed;
use crate::rng::Rng;
use crate::runner::{Input, Runner};
use crate::tally::Tally;

/// What one of the two words asks for.
pub trait Task: Copy {
    /// What a file with the octets is called.
    const FILE: &'static str;

    fn word(self) -> &'static str;

    /// Whether the word is the second of the two.
    fn second(self) -> bool;

    /// What comes of octets on standard input.
    fn on_input(self, octets: &[u8]) -> Ended;

    /// What comes of octets that could be read.
    fn done(self, octets: &[u8]) -> Ended;
}

/// The word, and where the octets come from.
#[derive(Clone, Copy, PartialEq, Eq, Debug)]
pub enum Run {
    FirstInput,
    SecondInput,
    FirstFile,
    SecondFile,
}

impl Run {
    pub fn of(task: impl Task, by_name: bool) -> Run {
        match (task.second(), by_name) {
            (false, false) => Run::FirstInput,
            (true, false) => Run::SecondInput,
            (false, true) => Run::FirstFile,
            (true, true) => Run::SecondFile,
        }
    }
}

/// The runs of the program whose two words ask for such tasks.
pub struct Runs<T> {
    pub runner: Runner,
    pub rng: Rng,
    pub tally: Tally,
    tasks: PhantomData<T>,
}

impl<T: Task> Runs<T> {
    /// In a folder of that name.
    pub fn new(path: &str, folder: &str, seed: u64, tally: Tally) -> Result<Runs<T>, String> {
        let runner = Runner::new(path, folder)?;
        Ok(Runs { runner, rng: Rng::new(seed), tally, tasks: PhantomData })
    }

    /// What was met, which has to be all.
    pub fn finished(self) -> Result<Tally, String> {
        self.tally.all_met()?;
        Ok(self.tally)
    }

    /// A log as it is played, so often of a hundred, or one that is near it.
    pub fn played_or_near(&mut self, played: usize) -> Vec<u8> {
        let log = steered(&mut self.rng);
        if self.rng.percent(played) {
            log
        } else {
            near_move::log(&mut self.rng, &log)
        }
    }

    pub fn from_input(&self, octets: &[u8], task: T, feed: Feed) -> Result<(), String> {
        let expected = task.on_input(octets);
        self.runner.expect(&[task.word()], Input::Log(octets, feed), octets, &expected)
    }

    pub fn by_name(&self, octets: &[u8], task: T, input: Input) -> Result<(), String> {
        let name = self.runner.file(T::FILE, octets)?;
        self.runner.expect(&[task.word(), &name], input, octets, &task.done(octets))
    }
}
