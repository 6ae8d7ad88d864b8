//! Comparing another player's text with the engine's, octet by octet.

use crate::logs::{self, CYCLES, LEAST_EVENTS};
use crate::moved;
use crate::near_move;
use crate::notice::{watch, Fault};
use crate::play::{next_record, play, start};
use crate::program::{Feed, Program};
use crate::rng::Rng;
use crate::tally::Tally;

/// So many logs, those after the long ones, are fed in small parts too.
const FED_IN_PARTS: usize = 12;

/// The first line that differs: its number from 1, what was expected, what came.
#[derive(Debug, PartialEq, Eq)]
pub struct Difference {
    pub line: usize,
    pub expected: String,
    pub got: String,
}

pub fn compare(expected: &[u8], got: &[u8]) -> Result<(), Difference> {
    let mut wanted = expected.split_inclusive(|&octet| octet == b'\n');
    let mut given = got.split_inclusive(|&octet| octet == b'\n');
    for line in 1.. {
        match (wanted.next(), given.next()) {
            (None, None) => break,
            (a, b) if a == b => {}
            (a, b) => return Err(Difference { line, expected: shown(a), got: shown(b) }),
        }
    }
    Ok(())
}

fn shown(line: Option<&[u8]>) -> String {
    line.map_or("nothing".to_string(), |line| format!("{:?}", String::from_utf8_lossy(line)))
}

/// Plays all logs of a seed through the engine alone.
pub fn engine_alone(seed: u64) -> Result<Tally, String> {
    let mut tally = Tally::default();
    let mut rng = Rng::new(seed);
    for log in logs::all(seed) {
        watched(&log, &mut rng, &mut tally)?;
    }
    finished(&tally)?;
    Ok(tally)
}

/// Plays all logs of a seed through the engine and another player.
pub fn against(path: &str, seed: u64) -> Result<Tally, String> {
    let program = Program::new(path, &[]);
    let mut tally = Tally::default();
    let (mut rng, mut expected) = (Rng::new(seed), Vec::new());
    for (number, log) in logs::all(seed).enumerate() {
        watched(&log, &mut rng, &mut tally)?;
        expected.clear();
        play(&log, &mut expected);
        same(&program, &log, Feed::Whole, &expected)?;
        if (CYCLES..CYCLES + FED_IN_PARTS).contains(&number) {
            let size = if number % 3 == 0 { 7 } else { 1 };
            same(&program, &log, Feed::Parts(size), &expected)?;
        }
    }
    finished(&tally)?;
    Ok(tally)
}

/// Watches a log as it is played and as it is moved, and moves one made from it.
fn watched(log: &[u8], rng: &mut Rng, tally: &mut Tally) -> Result<(), String> {
    // A fault is told with the log as far as its event.
    watch(log, tally).map_err(|Fault { event, what }| {
        let log = hex(up_to(log, event));
        format!("log {log}\nevent {event} of the engine is at fault\n{what}")
    })?;
    let near = near_move::log(rng, log);
    for log in [log, near.as_slice()] {
        let fault = |what| format!("log {}\nthe engine is at fault\n{what}", hex(log));
        moved::watch(log, rng, tally).map_err(fault)?;
    }
    Ok(())
}

pub fn same(program: &Program, log: &[u8], feed: Feed, expected: &[u8]) -> Result<(), String> {
    let got = program.play(log, feed).map_err(|fault| format!("{fault}\nlog {}", hex(log)))?;
    compare(expected, &got).map_err(|difference| {
        let Difference { line, expected, got } = difference;
        let log = hex(up_to(log, line - 1));
        format!("log {log}\nline {line} differs\nexpected {expected}\ngot      {got}")
    })
}

/// The log as far as the record of that number: it shows the difference just as well.
fn up_to(log: &[u8], records: usize) -> &[u8] {
    let Some((_, mut rest)) = start(log) else { return log };
    for _ in 0..records {
        let Some((_, after)) = next_record(rest) else { return log };
        rest = after;
    }
    &log[..log.len() - rest.len()]
}

/// A run counts only if every occurrence was met and the events are many enough.
fn finished(tally: &Tally) -> Result<(), String> {
    tally.all_met()?;
    if tally.events < LEAST_EVENTS {
        return Err(format!("only {} events", tally.events));
    }
    Ok(())
}

pub fn hex(octets: &[u8]) -> String {
    octets.iter().map(|octet| format!("{octet:02x}")).collect()
}
