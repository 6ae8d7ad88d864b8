//! Events per second and CPU time, another player beside the engine. The engine plays in
//! two ways: testing the board at each event, and testing it once.

use std::time::{Duration, Instant};

use crate::compare::compare;
use crate::cpu;
use crate::load;
use crate::logs::DEFAULT_SEED;
use crate::play::{play, play_tested_once};
use crate::program::{Feed, Program};
use crate::rng::Rng;

const EVENTS: usize = 1_000_000;
const ROUNDS: usize = 3;
const LOADS: [(&str, usize); 3] = [("few", 4), ("sixteen", 16), ("sixty-four", 64)];

/// The programs that are run, by a pipe each.
struct Players {
    program: Program,
    each: Program,
    once: Program,
}

/// The least times over the rounds so far.
struct Best {
    elapsed: Duration,
    cpu: Duration,
}

/// From memory, the elapsed time alone is taken.
struct Times {
    program: Best,
    each: Best,
    each_memory: Best,
    once: Best,
    once_memory: Best,
}

/// Times all loads; `own` is the path of the engine's own program.
pub fn time(path: &str, own: &str) -> Result<(), String> {
    let players = Players {
        program: Program::new(path, &[]),
        each: Program::new(own, &["play"]),
        once: Program::new(own, &["play", "once"]),
    };
    println!("events per second and CPU time, best of {ROUNDS} rounds over {EVENTS} events");
    println!(
        "{:<11} {:>9} {:>10} | {:>10} {:>10} {:>6} | {:>10} {:>10} {:>6}",
        "load", "mean legs", "program", "each", "by pipe", "CPU", "once", "by pipe", "CPU"
    );
    for (name, legs) in LOADS {
        let (log, mean) = load::log(&mut Rng::new(DEFAULT_SEED), legs, EVENTS);
        print_load(name, mean, &measure(&players, &log)?);
    }
    println!("each, once: the engine from memory, testing the board at each event or once for the log;");
    println!("CPU: the engine's CPU time by pipe to the program's; above 1, the program takes less");
    Ok(())
}

fn print_load(name: &str, mean: f64, times: &Times) {
    let ratio = |engine: &Best| engine.cpu.as_secs_f64() / times.program.cpu.as_secs_f64();
    println!(
        "{name:<11} {mean:>9.1} {:>10.0} | {:>10.0} {:>10.0} {:>6.2} | {:>10.0} {:>10.0} {:>6.2}",
        times.program.rate(),
        times.each_memory.rate(),
        times.each.rate(),
        ratio(&times.each),
        times.once_memory.rate(),
        times.once.rate(),
        ratio(&times.once),
    );
}

/// Each round runs all players one after another; their texts have to agree.
fn measure(players: &Players, log: &[u8]) -> Result<Times, String> {
    let mut times = Times::none();
    for _ in 0..ROUNDS {
        let texts = [
            times.program.piped(&players.program, log)?,
            times.each.piped(&players.each, log)?,
            times.once_memory.in_memory(play_tested_once, log),
            times.once.piped(&players.once, log)?,
        ];
        let expected = times.each_memory.in_memory(play, log);
        for text in texts {
            compare(&expected, &text).map_err(|difference| format!("texts differ: {difference:?}"))?;
        }
    }
    Ok(times)
}

impl Times {
    fn none() -> Times {
        let none = || Best { elapsed: Duration::MAX, cpu: Duration::MAX };
        Times { program: none(), each: none(), each_memory: none(), once: none(), once_memory: none() }
    }
}

impl Best {
    fn piped(&mut self, program: &Program, log: &[u8]) -> Result<Vec<u8>, String> {
        let before = cpu::of_children()?;
        let started = Instant::now();
        let text = program.play(log, Feed::Whole)?;
        self.elapsed = self.elapsed.min(started.elapsed());
        self.cpu = self.cpu.min(cpu::of_children()? - before);
        Ok(text)
    }

    fn in_memory(&mut self, play: fn(&[u8], &mut Vec<u8>) -> u64, log: &[u8]) -> Vec<u8> {
        let mut text = Vec::new();
        let started = Instant::now();
        play(log, &mut text);
        self.elapsed = self.elapsed.min(started.elapsed());
        text
    }

    fn rate(&self) -> f64 {
        EVENTS as f64 / self.elapsed.as_secs_f64()
    }
}
