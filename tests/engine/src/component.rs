//! Reading a component as a terminal sends it.

use crate::board::LinkId;

/// What the object identifiers of all operations and of the error begin with.
pub const OBJECT: [u8; 5] = [0x04, 0x00, 0x82, 0x71, 0x01];
pub const EXPLICIT: u8 = 0x01;
pub const SUBADDRESS: u8 = 0x03;
pub const LINK_REQUEST: u8 = 0x04;
pub const ECT_INFORM: u8 = 0x05;
pub const MAX_DEPTH: u8 = 4;

const NULL: &[u8] = &[0x05, 0x00];
const GENERAL: u8 = 0x80;
pub const INVOKE: u8 = 0x81;

#[derive(Clone, Copy, PartialEq, Eq, Hash, Debug)]
pub enum Operation {
    Execute,
    Explicit(LinkId),
    LinkRequest,
}

/// `identifier` is a whole element: the one received, or NULL.
#[derive(Clone, Copy, PartialEq, Eq, Debug)]
pub enum Reading<'a> {
    Nothing,
    Reject { identifier: &'a [u8], sort: u8, problem: u8 },
    Invoke { identifier: &'a [u8], operation: Operation },
}

#[derive(Clone, Copy)]
pub struct Element<'a> {
    pub tag: u8,
    pub whole: &'a [u8],
    pub contents: &'a [u8],
}

impl Element<'_> {
    /// The value of an integer: of one octet, or of two that are not padded.
    pub fn integer(&self) -> Option<i16> {
        match (self.tag, self.contents) {
            (0x02, &[octet]) => Some(octet as i8 as i16),
            (0x02, &[high, low]) if !self.padded() => Some(i16::from_be_bytes([high, low])),
            _ => None,
        }
    }

    /// Whether two octets would be an integer but for their first nine bits, which are all equal.
    pub fn padded(&self) -> bool {
        let (0x02, &[high, low]) = (self.tag, self.contents) else { return false };
        matches!(u16::from_be_bytes([high, low]) >> 7, 0 | 0x1FF)
    }
}

/// Takes one element off the front; none if there is no whole one.
#[inline]
pub fn take(octets: &[u8]) -> Option<(Element<'_>, &[u8])> {
    let &[tag, length, ref tail @ ..] = octets else { return None };
    if tag & 0x1F == 0x1F || length >= 128 || length as usize > tail.len() {
        return None;
    }
    let (contents, rest) = tail.split_at(length as usize);
    Some((Element { tag, whole: &octets[..2 + contents.len()], contents }, rest))
}

/// Whether the octets are whole elements, those inside constructed ones included.
pub fn whole(mut octets: &[u8], depth: u8) -> bool {
    while !octets.is_empty() {
        if depth > MAX_DEPTH {
            return false;
        }
        let Some((element, rest)) = take(octets) else { return false };
        if element.tag & 0x20 != 0 && !whole(element.contents, depth + 1) {
            return false;
        }
        octets = rest;
    }
    true
}

pub fn read(component: &[u8]) -> Reading<'_> {
    let general = |identifier, problem| Reading::Reject { identifier, sort: GENERAL, problem };
    match component.first() {
        Some(0xA1) => {}
        Some(0xA2..=0xA4) => return Reading::Nothing,
        _ => return general(NULL, 0),
    }
    let contents = match component {
        [_, length, contents @ ..] if *length as usize == contents.len() && whole(contents, 1) => contents,
        _ => return general(NULL, 2),
    };
    let (identifier, rest) = match take(contents) {
        Some((first, rest)) if first.integer().is_some() => (first.whole, rest),
        _ => return general(NULL, 1),
    };
    let (second, rest) = match take(rest) {
        Some((second, rest)) if names_operation(&second) => (second, rest),
        _ => return general(identifier, 1),
    };
    match operation(&second, rest) {
        Ok(operation) => Reading::Invoke { identifier, operation },
        Err(problem) => Reading::Reject { identifier, sort: INVOKE, problem },
    }
}

fn names_operation(element: &Element) -> bool {
    element.integer().is_some() || (element.tag == 0x06 && !element.contents.is_empty())
}

/// The operation with its argument, or the invoke problem.
fn operation(second: &Element, rest: &[u8]) -> Result<Operation, u8> {
    if let Some(local) = second.integer() {
        return if local == 6 { Ok(Operation::Execute) } else { Err(1) };
    }
    match second.contents.strip_prefix(&OBJECT) {
        Some(&[LINK_REQUEST]) => Ok(Operation::LinkRequest),
        Some(&[EXPLICIT]) => {
            let argument = take(rest).and_then(|(third, _)| third.integer());
            argument.map(|value| Operation::Explicit(LinkId(value))).ok_or(2)
        }
        _ => Err(1),
    }
}
