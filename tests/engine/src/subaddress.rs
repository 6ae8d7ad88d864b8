//! Reading a SubaddressTransfer invoke, which joined parties send each other.

use crate::argument::argument;
use crate::component::{take, Element, SUBADDRESS};

/// Octets of the longest subaddress; the shortest has one.
pub const LONGEST: usize = 20;

/// Whether a component is a SubaddressTransfer invoke, with nothing behind its argument.
pub fn is_transfer(component: &[u8]) -> bool {
    argument(component, SUBADDRESS).is_some_and(|argument| is_argument(&argument))
}

fn is_argument(argument: &Element) -> bool {
    is_subaddress(argument) || (argument.tag == 0x30 && is_sequence(argument.contents).unwrap_or(false))
}

fn is_subaddress(element: &Element) -> bool {
    element.tag == 0x04 && (1..=LONGEST).contains(&element.contents.len())
}

/// A subaddress and then perhaps one octet under tag 01, of any value.
fn is_sequence(contents: &[u8]) -> Option<bool> {
    let (first, rest) = take(contents)?;
    Some(is_subaddress(&first) && matches!(rest, [] | [0x01, 1, _]))
}
