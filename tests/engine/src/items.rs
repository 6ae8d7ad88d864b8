//! The items of a script for the attendant's console.

use crate::play::next_record;

pub const PIN: u8 = 0;
pub const NAME: u8 = 0xFF;

#[derive(Clone, Copy, PartialEq, Eq, Debug)]
pub enum Item<'a> {
    Pin(u32),
    Name {
        line: &'a [u8],
        digits: &'a [u8],
    },
    /// A record, whole, cut or of an unknown kind.
    Event(&'a [u8]),
    /// A pin or a name without its last octets.
    Cut,
}

/// Splits off the next item. What is cut or of an unknown kind is the last: nothing is left after it.
pub fn next_item(rest: &[u8]) -> Option<(Item<'_>, &[u8])> {
    match *rest {
        [] => None,
        [PIN, ref body @ ..] => Some(pin_in(body).unwrap_or((Item::Cut, &[]))),
        [NAME, ref body @ ..] => Some(name_in(body).unwrap_or((Item::Cut, &[]))),
        _ => next_record(rest).map(|(record, after)| (Item::Event(record), after)),
    }
}

fn pin_in(body: &[u8]) -> Option<(Item<'_>, &[u8])> {
    let (leg, after) = body.split_first_chunk()?;
    Some((Item::Pin(u32::from_be_bytes(*leg)), after))
}

fn name_in(body: &[u8]) -> Option<(Item<'_>, &[u8])> {
    let (line, after) = counted(body)?;
    let (digits, after) = counted(after)?;
    Some((Item::Name { line, digits }, after))
}

/// A count and so many octets.
fn counted(body: &[u8]) -> Option<(&[u8], &[u8])> {
    let (&count, behind) = body.split_first()?;
    behind.split_at_checked(count.into())
}

pub fn pin(leg: u32) -> Vec<u8> {
    [&[PIN], &leg.to_be_bytes()[..]].concat()
}

/// Line and digits have at most 255 octets each.
pub fn name(line: &[u8], digits: &[u8]) -> Vec<u8> {
    [&[NAME, line.len() as u8], line, &[digits.len() as u8], digits].concat()
}
