//! Runs of the program that packs and unpacks logs on the largest ones and larger ones, with other words, and
//! where it cannot read or write.

use std::fs::{File, OpenOptions};
use std::process::Stdio;

use crate::archive::{packed, regrouped, Work, LARGEST_LOG};
use crate::archiver::{self, CANNOT_READ, CANNOT_WRITE, USAGE};
use crate::cycle;
use crate::ended::Ended;
use crate::exact::{exactly, last_bad, long};
use crate::moving::records;
use crate::opens::Opens;
use crate::program::Feed;
use crate::runner::Input;
use crate::runs::{Run, Runs};
use crate::seen_archive_run::{ArchiveInputSeen, ArchiveRunSeen, ArchiveWordSeen};

/// The archive of a log of any size and fields.
fn archive(log: &[u8]) -> Vec<u8> {
    let list: Vec<&[u8]> = records(&log[2..]).collect();
    regrouped([log[0], log[1]], &list)
}

/// The same octets but for these, from that place on.
fn with(octets: &[u8], place: usize, other: &[u8]) -> Vec<u8> {
    let mut octets = octets.to_vec();
    octets[place..place + other.len()].copy_from_slice(other);
    octets
}

impl Runs<Work> {
    /// All of these runs.
    pub fn odd(&mut self) -> Result<(), String> {
        self.large()?;
        self.failures()?;
        self.words()
    }

    /// Octets about as many as there may be, and far more.
    fn large(&mut self) -> Result<(), String> {
        let far_larger = cycle::log(&mut self.rng, (1, 1), Opens::Any);
        let mixed = long(&mut self.rng, 2 * LARGEST_LOG);
        for by_name in [false, true] {
            self.large_logs(&mixed, by_name)?;
            self.large_archives(&mixed, by_name)?;
            for work in Work::BOTH {
                self.run(&far_larger, work, by_name)?;
                self.run(&archive(&far_larger), work, by_name)?;
                self.tally.add((Run::of(work, by_name), ArchiveRunSeen::Larger));
            }
        }
        Ok(())
    }

    fn large_logs(&mut self, log: &[u8], by_name: bool) -> Result<(), String> {
        use ArchiveRunSeen::*;
        let (most, larger) = (exactly(log, LARGEST_LOG), exactly(log, LARGEST_LOG + 1));
        // The last record of each is one of four octets.
        let (last, last_larger) = (LARGEST_LOG - 4, LARGEST_LOG - 3);
        let runs = [
            (MostLess, exactly(log, LARGEST_LOG - 1)),
            (Most, most.clone()),
            (MostCut, with(&most, last, &[4])),
            (MostUnknown, with(&most, last, &[10])),
            (MostField, last_bad(&exactly(log, last))),
            (LargerByOne, larger.clone()),
            (LargerOptions, with(&larger, 1, &[4])),
            (LargerCut, with(&larger, last_larger, &[4])),
            (LargerUnknown, with(&larger, 2, &[0])),
            (LargerField, last_bad(&exactly(log, last_larger))),
        ];
        self.each(runs, Work::Pack, by_name)
    }

    fn large_archives(&mut self, log: &[u8], by_name: bool) -> Result<(), String> {
        use ArchiveRunSeen::*;
        let of = |length: usize| archive(&exactly(log, length));
        let (most, larger) = (of(LARGEST_LOG), of(LARGEST_LOG + 1));
        let last = u32::from_be_bytes([most[2], most[3], most[4], most[5]]) as usize + 5;
        let runs = [
            (MostLess, of(LARGEST_LOG - 1)),
            (Most, most.clone()),
            (MostCut, [&of(LARGEST_LOG - 1)[..], &[0]].concat()),
            (MostCut, with(&most, 2, &[0xFF; 4])),
            (MostCut, with(&most, 3, &[1])),
            (MostUnknown, with(&most, last, &[0])),
            (MostUnknown, with(&most, last, &[10])),
            (MostField, archive(&last_bad(&exactly(log, LARGEST_LOG - 4)))),
            (LargerByOne, larger.clone()),
            (LargerOptions, with(&larger, 0, &[3])),
            (LargerCut, with(&larger, 2, &[0xFF; 4])),
            (LargerCut, [&most[..], &[0]].concat()),
            (LargerUnknown, with(&larger, 6, &[0])),
            (LargerField, archive(&last_bad(&exactly(log, LARGEST_LOG - 3)))),
        ];
        self.each(runs, Work::Unpack, by_name)
    }

    fn each(
        &mut self,
        runs: impl IntoIterator<Item = (ArchiveRunSeen, Vec<u8>)>,
        work: Work,
        by_name: bool,
    ) -> Result<(), String> {
        runs.into_iter().try_for_each(|(seen, octets)| {
            self.tally.add((Run::of(work, by_name), seen));
            self.run(&octets, work, by_name)
        })
    }

    /// Where the program cannot read or cannot write.
    fn failures(&mut self) -> Result<(), String> {
        use ArchiveInputSeen::*;
        let full = || OpenOptions::new().write(true).open("/dev/full").map(Stdio::from);
        let trouble = |error: std::io::Error| error.to_string();
        let [cannot_read, cannot_write] = [CANNOT_READ, CANNOT_WRITE].map(|line| Ended::with_error(line, 1));
        let (small, other, most) =
            (exactly(&[1, 1], 50), exactly(&[0, 3], 40), exactly(&[2, 0], LARGEST_LOG));
        let folder = self.runner.folder.0.to_string_lossy().into_owned();
        let none = self.runner.folder.0.join("none").to_string_lossy().into_owned();
        for work in Work::BOTH {
            let word = work.word();
            let form = |log: &[u8]| if work == Work::Pack { log.to_vec() } else { archive(log) };
            let (small, other, most) = (form(&small), form(&other), form(&most));
            self.by_name(&small, work, Input::Log(&other, Feed::Whole))?;
            for name in [&none, "", &folder] {
                self.runner.expect(&[word, name], Input::Log(&other, Feed::Whole), &[], &cannot_read)?;
            }
            let directory = Input::Open(File::open(&folder).map_err(trouble)?);
            self.runner.expect(&[word], directory, &[], &cannot_read)?;
            for octets in [&small, &most] {
                let log = Input::Log(octets, Feed::Whole);
                let output = full().map_err(trouble)?;
                self.runner.expect_into(output, &[word], log, octets, &cannot_write)?;
                let name = self.runner.file("written nowhere", octets)?;
                let output = full().map_err(trouble)?;
                self.runner.expect_into(output, &[word, &name], Input::Nothing, octets, &cannot_write)?;
            }
            let refused = &small[..small.len() - 1];
            let expected = archiver::done(refused, work);
            let log = Input::Log(refused, Feed::Whole);
            self.runner.expect_into(full().map_err(trouble)?, &[word], log, refused, &expected)?;
            let seen = [FileNotInput, NoFile, NoName, Directory, InputDirectory];
            self.tally.add_each(seen.map(|seen| (work, seen)));
            let seen = [FullDisk, FullDiskFile, FullDiskMost, FullDiskRefused];
            self.tally.add_each(seen.map(|seen| (work, seen)));
        }
        Ok(())
    }

    /// Words that there are not, and the one for help.
    fn words(&mut self) -> Result<(), String> {
        let log = exactly(&[1, 1], 50);
        let archive = packed(&log).map_err(|refusal| format!("small log: {refusal:?}"))?;
        for (work, octets) in [(Work::Pack, &log), (Work::Unpack, &archive)] {
            use ArchiveInputSeen::*;
            let (word, name) = (work.word(), self.runner.file("octets", octets)?);
            let capitals = word.to_uppercase();
            let longer = format!("{word}ed");
            let wrong: [(ArchiveInputSeen, &[&str]); 6] = [
                (ThreeWords, &[word, &name, &name]),
                (ThreeWords, &[word, &name, word]),
                (FileFirst, &[&name, word]),
                (OtherWord, &[&capitals]),
                (OtherWord, &[&longer, &name]),
                (OtherWord, &[&word[..word.len() - 1]]),
            ];
            for (seen, words) in wrong {
                self.usage(words, octets)?;
                self.tally.add((work, seen));
            }
        }
        use ArchiveWordSeen::*;
        let wrong: [(ArchiveWordSeen, &[&str]); 4] =
            [(NoWord, &[]), (EmptyWord, &[""]), (MoveWord, &["new"]), (HelpAndWord, &["--help", "pack"])];
        for (seen, words) in wrong {
            self.usage(words, &log)?;
            self.tally.add(seen);
        }
        let help = Ended { output: USAGE.as_bytes().to_vec(), ..Ended::default() };
        self.runner.expect(&["--help"], Input::Nothing, &[], &help)?;
        self.tally.add(Help);
        Ok(())
    }

    fn usage(&self, words: &[&str], octets: &[u8]) -> Result<(), String> {
        self.runner.expect(words, Input::Log(octets, Feed::Whole), &[], &Ended::with_error(USAGE, 2))
    }
}
