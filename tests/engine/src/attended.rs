//! What the program of the attendant's console writes and ends with, given its words and its standard input.

use std::io::Read;

use crate::attendant::{Console, Screen};
use crate::compare::hex;
use crate::ended::Ended;
use crate::items::{next_item, Item};
use crate::play::start;
use crate::reply::BUFFER;

/// More octets than so many are too many.
pub const LARGEST: usize = 65_536;

pub const USAGE: &str = "usage: ect_console < SCRIPT\n";
pub const CANNOT_READ: &str = "ect_console: cannot read\n";
pub const CANNOT_WRITE: &str = "ect_console: cannot write\n";
pub const TOO_LARGE: &str = "ect_console: the script is larger than 65536 octets\n";
const BAD_OPTIONS: &str = "bad options\n";

pub fn run(words: &[&str], input: impl Read) -> Ended {
    match words {
        [] => read(input),
        ["--help"] => Ended { output: USAGE.as_bytes().to_vec(), ..Ended::default() },
        _ => Ended::with_error(USAGE, 2),
    }
}

/// One octet more than there may be is enough to know.
fn read(input: impl Read) -> Ended {
    let mut script = Vec::new();
    match input.take(LARGEST as u64 + 1).read_to_end(&mut script) {
        Ok(_) => done(&script),
        Err(_) => Ended::with_error(CANNOT_READ, 1),
    }
}

/// What comes of a script that could be read.
pub fn done(script: &[u8]) -> Ended {
    if script.len() > LARGEST {
        return Ended::with_error(TOO_LARGE, 1);
    }
    Ended { output: text(script, Screen::EMPTY).into_bytes(), ..Ended::default() }
}

/// The text of a script by a console.
pub fn text(script: &[u8], mut console: impl Console) -> String {
    let Some((mut board, mut rest)) = start(script) else { return BAD_OPTIONS.to_string() };
    let mut text = String::new();
    let mut number = 0;
    while let Some((item, after)) = next_item(rest) {
        number += 1;
        let line = match item {
            Item::Pin(leg) => {
                let returned = console.pin(&board, leg);
                format!("{number} pin {returned} {}\n", console.screen())
            }
            Item::Event(record) => {
                let returned = console.play(&mut board, record, &mut [0; BUFFER]).returned;
                format!("{number} event {returned} {}\n", console.screen())
            }
            Item::Name { line, digits } => {
                let name = console.name(line, digits);
                format!("{number} name {}\n", if name.is_empty() { "-".to_string() } else { hex(name) })
            }
            Item::Cut => format!("{number} cut\n"),
        };
        text.push_str(&line);
        rest = after;
    }
    text
}
