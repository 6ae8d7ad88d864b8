//! Consoles that give wrong names: made scripts tell each of them from the right one, and what holds of every item
//! is not so with it.

#[path = "common/wrong_console.rs"]
mod wrong_console;

use engine::attendant::{Console, Screen};
use wrong_console::{told_apart, Wrong};

/// Where the first comma is, and where the last.
fn commas(line: &[u8]) -> Option<(usize, usize)> {
    let comma = |octet: &u8| *octet == b',';
    Some((line.iter().position(comma)?, line.iter().rposition(comma)?))
}

fn or_digits<'a>(part: &'a [u8], digits: &'a [u8]) -> &'a [u8] {
    if part.is_empty() {
        digits
    } else {
        part
    }
}

fn before<'a>(line: &'a [u8], digits: &'a [u8]) -> &'a [u8] {
    Screen::EMPTY.name(line, digits)
}

#[test]
fn wrong_names() {
    told_apart([
        (
            "the part after the comma",
            Wrong::names(|line, digits| {
                or_digits(commas(line).map_or(line, |(first, _)| &line[first + 1..]), digits)
            }),
        ),
        (
            "the part before the last comma",
            Wrong::names(|line, digits| {
                or_digits(commas(line).map_or(line, |(_, last)| &line[..last]), digits)
            }),
        ),
        (
            "the part with its comma",
            Wrong::names(|line, digits| match commas(line) {
                Some((first @ 1.., _)) => &line[..=first],
                _ => before(line, digits),
            }),
        ),
        (
            "an empty name for an empty part",
            Wrong::names(|line, _| commas(line).map_or(line, |(first, _)| &line[..first])),
        ),
        (
            "an empty name for an empty line",
            Wrong::names(|line, digits| if line.is_empty() { line } else { before(line, digits) }),
        ),
        (
            "the first part that is not empty",
            Wrong::names(|line, digits| {
                line.split(|octet| *octet == b',').find(|part| !part.is_empty()).unwrap_or(digits)
            }),
        ),
        (
            "digits for a line with no comma",
            Wrong::names(|line, digits| commas(line).map_or(digits, |_| before(line, digits))),
        ),
        (
            "the digits always, where there are some",
            Wrong::names(|line, digits| if digits.is_empty() { before(line, digits) } else { digits }),
        ),
        ("blanks at both ends trimmed", Wrong::names(|line, digits| before(line, digits).trim_ascii())),
        ("blanks first trimmed", Wrong::names(|line, digits| before(line, digits).trim_ascii_start())),
        ("blanks last trimmed", Wrong::names(|line, digits| before(line, digits).trim_ascii_end())),
        ("the digits' blanks trimmed", Wrong::names(|line, digits| before(line, digits.trim_ascii()))),
        (
            "digits for a part of blanks",
            Wrong::names(|line, digits| {
                let name = before(line, digits);
                or_digits(if name.trim_ascii().is_empty() { b"" } else { name }, digits)
            }),
        ),
        ("the digits before their comma", Wrong::names(|line, digits| before(line, before(digits, b"")))),
        (
            "the top bit of a comma passed over",
            Wrong::names(|line, digits| {
                let end = line.iter().position(|octet| octet & 0x7F == b',').unwrap_or(line.len());
                or_digits(&line[..end], digits)
            }),
        ),
        (
            "the name as far as the octet 00",
            Wrong::names(|line, digits| {
                let name = before(line, digits);
                &name[..name.iter().position(|octet| *octet == 0).unwrap_or(name.len())]
            }),
        ),
        (
            "a line of at most 127 octets",
            Wrong::names(|line, digits| before(&line[..line.len().min(127)], digits)),
        ),
        (
            "a line of at most 254 octets",
            Wrong::names(|line, digits| before(&line[..line.len().min(254)], digits)),
        ),
    ]);
}
