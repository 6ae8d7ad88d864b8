//! What the program that moves logs writes and ends with, given its words and its standard input.

use std::fs;
use std::io::Read;

use crate::ended::Ended;
use crate::moving::{moved_log, Way};

/// The most octets of a log on standard input.
pub const LARGEST: usize = 65_536;
pub const USAGE: &str = "usage: ect_move new|old [FILE]\n";
pub const CANNOT_READ: &str = "ect_move: cannot read\n";
pub const CANNOT_WRITE: &str = "ect_move: cannot write\n";
pub const TOO_LARGE: &str = "ect_move: the log is larger than 65536 octets: name its file\n";

pub fn run(words: &[&str], input: impl Read) -> Ended {
    match words {
        ["--help"] => Ended { output: USAGE.as_bytes().to_vec(), ..Ended::default() },
        ["new"] => from_input(input, Way::ToNew),
        ["old"] => from_input(input, Way::ToOld),
        ["new", file] => from_file(file, Way::ToNew),
        ["old", file] => from_file(file, Way::ToOld),
        _ => Ended::with_error(USAGE, 2),
    }
}

fn from_input(input: impl Read, way: Way) -> Ended {
    let mut log = Vec::new();
    match input.take(LARGEST as u64 + 1).read_to_end(&mut log) {
        Err(_) => Ended::with_error(CANNOT_READ, 1),
        Ok(length) if length > LARGEST => Ended::with_error(TOO_LARGE, 1),
        Ok(_) => moved(&log, way),
    }
}

fn from_file(file: &str, way: Way) -> Ended {
    match fs::read(file) {
        Err(_) => Ended::with_error(CANNOT_READ, 1),
        Ok(log) => moved(&log, way),
    }
}

/// What comes of a log that could be read.
pub fn moved(log: &[u8], way: Way) -> Ended {
    match moved_log(log, way) {
        Ok(output) => Ended { output, ..Ended::default() },
        Err(refusal) => Ended::with_error(&format!("refused {}\n", refusal.record), refusal.returned.into()),
    }
}
