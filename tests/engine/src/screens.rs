//! The program of the attendant's console, compared with the engine's own: standard output octet by octet,
//! standard error, and exit status.

use crate::attendant::Screen;
use crate::attended;
use crate::compare::hex;
use crate::each_script;
use crate::play::start;
use crate::program::Feed;
use crate::rng::Rng;
use crate::runner::{Input, Runner};
use crate::screen_scripts;
use crate::screened;
use crate::seen_script::ScriptRunSeen;
use crate::tally::Tally;

const SCRIPTS: usize = 20_000;
/// What is fed in small parts takes long, and is little.
const IN_PARTS: usize = 40;

pub struct ScreenRuns {
    pub runner: Runner,
    pub rng: Rng,
    pub tally: Tally,
}

/// Runs the program over all scripts of a seed.
pub fn against(path: &str, seed: u64) -> Result<Tally, String> {
    let runner = Runner::new(path, "screens")?;
    let mut runs = ScreenRuns { runner, rng: Rng::new(seed), tally: Tally::of_screens() };
    let each = each_script::scripts(&mut runs.rng);
    // Those that any seed has come last, so that what is fed in small parts is of the seed.
    let first = SCRIPTS - each.len();
    for number in 0..first {
        let script = screen_scripts::script(&mut runs.rng);
        let feed = match number {
            IN_PARTS.. => Feed::Whole,
            _ => Feed::Parts(if number % 2 == 0 { 7 } else { 1 }),
        };
        runs.run(&script, feed)?;
    }
    runs.tally.add(ScriptRunSeen::Parts);
    for script in &each {
        runs.run(script, Feed::Whole)?;
        if start(script).is_none() {
            runs.only(script, Feed::Parts(1))?;
            runs.tally.add(ScriptRunSeen::PartsBad);
        }
    }
    runs.odd()?;
    runs.tally.all_met()?;
    Ok(runs.tally)
}

impl ScreenRuns {
    /// Holds the engine to what has to come of a script, and the program to the engine.
    pub fn run(&mut self, script: &[u8], feed: Feed) -> Result<(), String> {
        let fault = |what| format!("script {}\nthe engine is at fault\n{what}", hex(script));
        screened::watch(script, Screen::EMPTY, &mut self.tally).map_err(fault)?;
        self.tally.logs += 1;
        self.only(script, feed)
    }

    /// Without tallying it.
    pub fn only(&self, script: &[u8], feed: Feed) -> Result<(), String> {
        let expected = attended::run(&[], script);
        self.runner.expect(&[], Input::Log(script, feed), script, &expected)
    }
}
