//! The texts of a log and of that log with records exchanged, held to each other line by line.

use std::fmt;

/// Where it comes out otherwise in the other order, first.
#[derive(Clone, Copy, PartialEq, Eq, Debug)]
pub enum Otherwise {
    /// The line of an event that is exchanged; its number in the log, from 1.
    Answer(usize),
    /// Any other line, the last too; its number in the text, from 0.
    Line(usize),
    /// The board behind that record, from 0.
    Board(usize),
}

impl fmt::Display for Otherwise {
    fn fmt(&self, text: &mut fmt::Formatter) -> fmt::Result {
        match self {
            Otherwise::Answer(record) => write!(text, "event {record} gives other in the other order"),
            Otherwise::Line(line) => write!(text, "line {line} is another in the other order"),
            Otherwise::Board(place) => write!(text, "the board behind record {place} is another"),
        }
    }
}

/// The number in front, and what stands behind it.
fn parted(line: &[u8]) -> (&[u8], &[u8]) {
    line.split_at(line.iter().position(|&octet| octet == b' ').unwrap_or(line.len()))
}

/// Each line is the same, but for those of two that are exchanged: they are so too, with the numbers left in
/// their places. The lines of the records follow the first line.
pub fn same(text: &[u8], other: &[u8], places: &[usize]) -> Result<(), Otherwise> {
    let lines = |text| <[u8]>::split(text, |&octet| octet == b'\n').collect();
    let (lines, others): (Vec<&[u8]>, Vec<&[u8]>) = (lines(text), lines(other));
    if lines.len() != others.len() {
        return Err(Otherwise::Line(lines.len().min(others.len())));
    }
    for (line, octets) in lines.iter().enumerate() {
        let first = |place: Option<usize>| place.is_some_and(|place| places.contains(&place));
        let there = match (first(line.checked_sub(1)), first(line.checked_sub(2))) {
            (true, _) => line + 1,
            (_, true) => line - 1,
            _ if *octets == others[line] => continue,
            _ => return Err(Otherwise::Line(line)),
        };
        let (number, behind) = parted(octets);
        if number != parted(others[line]).0 || Some(behind) != others.get(there).map(|line| parted(line).1) {
            return Err(Otherwise::Answer(line));
        }
    }
    Ok(())
}
