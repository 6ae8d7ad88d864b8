//! Command line of the test engine.

use std::env;
use std::io::{self, Read, Write};
use std::process::ExitCode;
use std::time::Instant;

use engine::archiver;
use engine::attended;
use engine::compare::{against, engine_alone};
use engine::ended::Ended;
use engine::logs::DEFAULT_SEED;
use engine::mover;
use engine::play::{play, play_tested_once};
use engine::rng::Rng;
use engine::tally::Tally;
use engine::{archives, load, moves, orders, screens, timing};

const USAGE: &str = "engine check PATH [SEED]   compare a player with the engine
engine time PATH           speed of a player and of the engine
engine moves PATH [SEED]   compare a mover of logs with the engine
engine archives PATH [SEED]
                           compare a packer of logs with the engine
engine screens PATH [SEED] compare a program of the attendant's console with the engine
engine orders PATH [SEED]  compare a player with the engine in either order of two events
engine play [once]         play the log on standard input; once: the board is tested once
engine move new|old [FILE] move the log on standard input, or in a file, to that form
engine archive pack|unpack [FILE]
                           pack the log, or unpack the archive, on standard input or in a file
engine console             play the script on standard input for the attendant's console
engine load LEGS EVENTS    write a log that keeps about so many legs
engine self [SEED]         play the logs through the engine alone";

fn main() -> ExitCode {
    let arguments: Vec<String> = env::args().skip(1).collect();
    let arguments: Vec<&str> = arguments.iter().map(String::as_str).collect();
    let done = match arguments.as_slice() {
        ["check", path, seed @ ..] => run(seed, |seed| against(path, seed)),
        ["self", seed @ ..] => run(seed, engine_alone),
        ["moves", path, seed @ ..] => run(seed, |seed| moves::against(path, seed)),
        ["archives", path, seed @ ..] => run(seed, |seed| archives::against(path, seed)),
        ["screens", path, seed @ ..] => run(seed, |seed| screens::against(path, seed)),
        ["orders", path, seed @ ..] => run(seed, |seed| orders::against(path, seed)),
        ["time", path] => time(path),
        ["play"] => play_input(play),
        ["move", words @ ..] => return ended(mover::run(words, io::stdin()), mover::CANNOT_WRITE),
        ["archive", words @ ..] => {
            return ended(archiver::run(words, io::stdin()), archiver::CANNOT_WRITE);
        }
        ["console", words @ ..] => {
            return ended(attended::run(words, io::stdin()), attended::CANNOT_WRITE);
        }
        ["play", "once"] => play_input(play_tested_once),
        ["load", legs, events] => load(legs, events),
        _ => Err(USAGE.to_string()),
    };
    match done {
        Ok(()) => ExitCode::SUCCESS,
        Err(message) => {
            eprintln!("{message}");
            ExitCode::FAILURE
        }
    }
}

/// Runs all logs of the seed given, or of the usual one, and prints the tally.
fn run(seed: &[&str], work: impl Fn(u64) -> Result<Tally, String>) -> Result<(), String> {
    let seed = match seed {
        [] => DEFAULT_SEED,
        [seed] => seed.parse().map_err(|_| format!("{seed}: the seed is a decimal number"))?,
        _ => return Err(USAGE.to_string()),
    };
    let started = Instant::now();
    let tally = work(seed)?;
    tally.print();
    println!("seed {seed}, {:.1} s: all met, no difference", started.elapsed().as_secs_f64());
    Ok(())
}

fn time(path: &str) -> Result<(), String> {
    let own = env::current_exe().map_err(|error| error.to_string())?;
    timing::time(path, &own.to_string_lossy())
}

fn play_input(play: fn(&[u8], &mut Vec<u8>) -> u64) -> Result<(), String> {
    let mut log = Vec::new();
    let mut text = Vec::new();
    io::stdin().read_to_end(&mut log).map_err(|error| error.to_string())?;
    play(&log, &mut text);
    write_output(&text)
}

/// As the product's programs end.
fn ended(ended: Ended, cannot_write: &str) -> ExitCode {
    if write_output(&ended.output).is_err() {
        eprint!("{cannot_write}");
        return ExitCode::FAILURE;
    }
    eprint!("{}", String::from_utf8_lossy(&ended.errors));
    ExitCode::from(ended.status as u8)
}

/// Writes a log as `time` plays it, for other measuring tools.
fn load(legs: &str, events: &str) -> Result<(), String> {
    let number = |text: &str| text.parse().map_err(|_| format!("{text}: not a decimal number"));
    let (log, _) = load::log(&mut Rng::new(DEFAULT_SEED), number(legs)?, number(events)?);
    write_output(&log)
}

fn write_output(octets: &[u8]) -> Result<(), String> {
    let mut output = io::stdout();
    output.write_all(octets).and_then(|()| output.flush()).map_err(|error| error.to_string())
}
