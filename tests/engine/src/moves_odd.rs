//! Runs of the program that moves logs on large logs, with other words, and where it cannot read or write.

use std::fs::{File, OpenOptions};
use std::process::Stdio;

use crate::cycle;
use crate::ended::Ended;
use crate::exact::{exactly, last_bad};
use crate::mover::{self, CANNOT_READ, CANNOT_WRITE, LARGEST, TOO_LARGE, USAGE};
use crate::moving::{moved_log, Way};
use crate::opens::Opens;
use crate::program::Feed;
use crate::runner::Input;
use crate::runs::Runs;
use crate::seen_run::InputSeen;

impl Runs<Way> {
    /// All of these runs.
    pub fn odd(&mut self) -> Result<(), String> {
        self.large()?;
        self.failures()?;
        self.words()
    }

    /// Logs about as large as standard input may give, and far larger ones.
    fn large(&mut self) -> Result<(), String> {
        let old = cycle::log(&mut self.rng, (1, 1), Opens::Old);
        let new = moved_log(&old, Way::ToNew).map_err(|refusal| format!("long log: {refusal:?}"))?;
        for (way, log) in [(Way::ToNew, &old), (Way::ToOld, &new)] {
            self.around_largest(way, log)?;
            self.by_name(log, way, Input::Nothing)?;
            self.by_name(&last_bad(log), way, Input::Nothing)?;
            let too_large = Ended::with_error(TOO_LARGE, 1);
            self.runner.expect(&[way.word()], Input::Log(log, Feed::Whole), log, &too_large)?;
            self.tally.add_each([InputSeen::FileLarger, InputSeen::FileLargerRefused, InputSeen::Larger]);
        }
        Ok(())
    }

    fn around_largest(&mut self, way: Way, log: &[u8]) -> Result<(), String> {
        let largest = exactly(log, LARGEST);
        self.from_input(&largest, way, Feed::Whole)?;
        self.by_name(&largest, way, Input::Nothing)?;
        self.tally.add(if way == Way::ToNew { InputSeen::LargestNew } else { InputSeen::LargestOld });
        let refused = last_bad(&exactly(log, LARGEST - 4));
        self.from_input(&refused, way, Feed::Whole)?;
        self.tally.add(InputSeen::LargestRefused);
        let larger = exactly(log, LARGEST + 1);
        self.from_input(&larger, way, Feed::Whole)?;
        self.by_name(&larger, way, Input::Nothing)?;
        self.tally.add_each([InputSeen::LargerByOne, InputSeen::FileLargerByOne]);
        let first_bad = [&log[..2], &[0], &larger[3..]].concat();
        self.from_input(&first_bad, way, Feed::Whole)?;
        self.tally.add(InputSeen::LargerRefused);
        Ok(())
    }

    /// Where the program cannot read or cannot write.
    fn failures(&mut self) -> Result<(), String> {
        let full = || OpenOptions::new().write(true).open("/dev/full").map(Stdio::from);
        let trouble = |error: std::io::Error| error.to_string();
        let [cannot_read, cannot_write] = [CANNOT_READ, CANNOT_WRITE].map(|line| Ended::with_error(line, 1));
        let (small, other) = (exactly(&[1, 1], 50), exactly(&[0, 3], 40));
        let long = cycle::log(&mut self.rng, (2, 3), Opens::Moved);
        let folder = self.runner.folder.0.to_string_lossy().into_owned();
        let none = self.runner.folder.0.join("none").to_string_lossy().into_owned();
        for way in Way::BOTH {
            let word = way.word();
            self.by_name(&small, way, Input::Log(&other, Feed::Whole))?;
            for name in [&none, &folder] {
                self.runner.expect(&[word, name], Input::Log(&other, Feed::Whole), &[], &cannot_read)?;
            }
            let directory = Input::Open(File::open(&folder).map_err(trouble)?);
            self.runner.expect(&[word], directory, &[], &cannot_read)?;
            let log = Input::Log(&small, Feed::Whole);
            self.runner.expect_into(full().map_err(trouble)?, &[word], log, &small, &cannot_write)?;
            for log in [&small, &long] {
                let name = self.runner.file("written nowhere", log)?;
                let output = full().map_err(trouble)?;
                self.runner.expect_into(output, &[word, &name], Input::Nothing, log, &cannot_write)?;
            }
            let refused = last_bad(&small);
            let log = Input::Log(&refused, Feed::Whole);
            let expected = mover::moved(&refused, way);
            self.runner.expect_into(full().map_err(trouble)?, &[word], log, &refused, &expected)?;
        }
        use InputSeen::*;
        self.tally.add_each([FileNotInput, NoFile, Directory, InputDirectory]);
        self.tally.add_each([FullDisk, FullDiskFile, FullDiskLarge, FullDiskRefused]);
        Ok(())
    }

    /// Words that there are not. The exit status of `--help` is not compared.
    fn words(&mut self) -> Result<(), String> {
        let log = exactly(&[1, 1], 50);
        let name = self.runner.file("a log", &log)?;
        let wrong: [(InputSeen, &[&str]); 8] = [
            (InputSeen::NoWord, &[]),
            (InputSeen::OtherWord, &["both"]),
            (InputSeen::OtherWord, &["New"]),
            (InputSeen::OtherWord, &["newer", &name]),
            (InputSeen::EmptyWord, &[""]),
            (InputSeen::ThreeWords, &["new", &name, &name]),
            (InputSeen::ThreeWords, &["old", &name, "new"]),
            (InputSeen::FileFirst, &[&name, "new"]),
        ];
        for (seen, words) in wrong {
            let log = Input::Log(&log, Feed::Whole);
            self.runner.expect(words, log, &[], &Ended::with_error(USAGE, 2))?;
            self.tally.add(seen);
        }
        let help = Ended { output: USAGE.as_bytes().to_vec(), ..Ended::default() };
        self.runner.expect_but_for_status(&["--help"], &help)?;
        self.tally.add(InputSeen::Help);
        Ok(())
    }
}
