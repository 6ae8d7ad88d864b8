//! What the program that packs and unpacks logs writes and ends with, given its words and its standard input.

use std::fs;
use std::io::{Error, Read};

use crate::archive::{Work, LARGEST_ARCHIVE};
use crate::ended::Ended;

pub const USAGE: &str = "usage: ect_archive pack|unpack [FILE]\n";
pub const CANNOT_READ: &str = "ect_archive: cannot read\n";
pub const CANNOT_WRITE: &str = "ect_archive: cannot write\n";

pub fn run(words: &[&str], input: impl Read) -> Ended {
    match words {
        ["--help"] => Ended { output: USAGE.as_bytes().to_vec(), ..Ended::default() },
        ["pack"] => read(input, Work::Pack),
        ["unpack"] => read(input, Work::Unpack),
        ["pack", file] => opened(fs::File::open(file), Work::Pack),
        ["unpack", file] => opened(fs::File::open(file), Work::Unpack),
        _ => Ended::with_error(USAGE, 2),
    }
}

fn opened(file: Result<impl Read, Error>, work: Work) -> Ended {
    match file {
        Ok(file) => read(file, work),
        Err(_) => Ended::with_error(CANNOT_READ, 1),
    }
}

/// One octet more than the largest archive is too large for either, so no more is read.
fn read(input: impl Read, work: Work) -> Ended {
    let mut octets = Vec::new();
    match input.take(LARGEST_ARCHIVE as u64 + 1).read_to_end(&mut octets) {
        Ok(_) => done(&octets, work),
        Err(_) => Ended::with_error(CANNOT_READ, 1),
    }
}

/// What comes of a log or an archive that could be read.
pub fn done(octets: &[u8], work: Work) -> Ended {
    match work.done(octets) {
        Ok(output) => Ended { output, ..Ended::default() },
        Err(refusal) => Ended::with_error(&format!("refused {}\n", refusal.record), refusal.returned.into()),
    }
}
