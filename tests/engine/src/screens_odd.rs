//! Runs of the program of the attendant's console on the largest scripts and larger ones, with words, and where it
//! cannot read or write.

use std::fs::{File, OpenOptions};
use std::process::Stdio;

use crate::attended::{self, CANNOT_READ, CANNOT_WRITE, LARGEST, TOO_LARGE, USAGE};
use crate::ended::Ended;
use crate::items::{name, pin};
use crate::program::Feed;
use crate::runner::Input;
use crate::screen_scripts;
use crate::screens::ScreenRuns;
use crate::seen_script::ScriptRunSeen::{self, *};

impl ScreenRuns {
    /// All of these runs.
    pub fn odd(&mut self) -> Result<(), String> {
        self.large()?;
        self.failures()?;
        self.words()
    }

    /// A script of just so many octets: its last item, a name, reaches to its end.
    fn exactly(&mut self, length: usize) -> Vec<u8> {
        let mut script = vec![1, 1];
        while script.len() < length - 4_000 {
            let items = screen_scripts::whole(&mut self.rng);
            if script.len() + items.len() < length - 2_000 {
                script.extend(items);
            }
        }
        while length - script.len() > 510 {
            script.extend(pin(7));
        }
        let octets = length - script.len() - 3;
        let line = octets.min(255);
        script.extend(name(&vec![b'a'; line], &vec![b'1'; octets - line]));
        script
    }

    /// Octets about as many as there may be, and far more.
    fn large(&mut self) -> Result<(), String> {
        let most = self.exactly(LARGEST);
        let mut runs: Vec<(ScriptRunSeen, Vec<u8>)> = vec![(Most, most.clone())];
        let less = self.exactly(LARGEST - 1);
        runs.push((MostLess, less));
        for (seen, behind) in [
            (MostCutPin, [0, 0, 0, 7].as_slice()),
            (MostCutName, &[255, 4, b'a', b'b']),
            (MostCutEvent, &[4, 0, 0, 7]),
            (MostUnknown, &[10]),
        ] {
            let front = self.exactly(LARGEST - behind.len());
            runs.push((seen, [&front, behind].concat()));
        }
        let larger = [&most[..], &[0]].concat();
        let far_larger = most.repeat(20);
        runs.extend([
            (LargerByOne, self.exactly(LARGEST + 1)),
            (LargerOptions, [&[3, 0], &larger[2..]].concat()),
            (LargerCut, larger.clone()),
            (LargerUnknown, [&[1, 1, 10], &larger[3..]].concat()),
            (Larger, far_larger),
        ]);
        runs.into_iter().try_for_each(|(seen, script)| {
            self.tally.add(seen);
            self.run(&script, Feed::Whole)
        })
    }

    /// Where the program cannot read or cannot write.
    fn failures(&mut self) -> Result<(), String> {
        let full = || OpenOptions::new().write(true).open("/dev/full").map(Stdio::from);
        let trouble = |error: std::io::Error| error.to_string();
        let [cannot_read, cannot_write, too_large] =
            [CANNOT_READ, CANNOT_WRITE, TOO_LARGE].map(|line| Ended::with_error(line, 1));
        let directory = Input::Open(File::open(&self.runner.folder.0).map_err(trouble)?);
        self.runner.expect(&[], directory, &[], &cannot_read)?;
        self.tally.add(InputDirectory);
        let (short, long) = ([&[1, 1], &pin(7)[..]].concat(), self.exactly(LARGEST));
        let larger = [&long[..], &[0]].concat();
        let runs = [
            (FullDisk, &short[..], &cannot_write),
            (FullDiskLong, &long, &cannot_write),
            (FullDiskBad, &[3, 0], &cannot_write),
            (FullDiskLarger, &larger, &too_large),
        ];
        for (seen, script, expected) in runs {
            let output = full().map_err(trouble)?;
            self.runner.expect_into(output, &[], Input::Log(script, Feed::Whole), script, expected)?;
            self.tally.add(seen);
        }
        Ok(())
    }

    /// Words that there are not, and the one for help.
    fn words(&mut self) -> Result<(), String> {
        let script = [&[1, 1], &pin(7)[..]].concat();
        let file = self.runner.file("script", &script)?;
        let wrong: [(ScriptRunSeen, &[&str]); 9] = [
            (EmptyWord, &[""]),
            (ScriptName, &[&file]),
            (OtherWord, &["play"]),
            (OtherWord, &["-h"]),
            (OtherWord, &["--HELP"]),
            (OtherWord, &["--helper"]),
            (TwoWords, &["play", &file]),
            (HelpAndWord, &["--help", "play"]),
            (HelpTwice, &["--help", "--help"]),
        ];
        for (seen, words) in wrong {
            let input = Input::Log(&script, Feed::Whole);
            self.runner.expect(words, input, &[], &Ended::with_error(USAGE, 2))?;
            self.tally.add(seen);
        }
        let help = attended::run(&["--help"], [].as_slice());
        self.runner.expect(&["--help"], Input::Nothing, &[], &help)?;
        self.runner.expect(&["--help"], Input::Log(&script, Feed::Whole), &[], &help)?;
        self.tally.add_each([Help, HelpScript]);
        Ok(())
    }
}
