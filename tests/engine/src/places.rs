//! Leg facilities and Informs judged by the places of their octets alone, beside the engine,
//! which reads elements: each octet of a right invoke has its place, since every length follows
//! from the count.

use crate::board::{Board, CallState, Reference, Standing};
use crate::carrier::{Carrier, ROOM};
use crate::notice::{row_of_leg, Moment};
use crate::notice_component::row_of;

/// Each leaves the board as it was, and returns and writes what its places and the row of its leg
/// or call say.
pub fn stands(moment: &Moment) -> Result<(), String> {
    let Some(carrier) = Carrier::of(moment.record[0]) else { return Ok(()) };
    if moment.record.len() != carrier.length() {
        return Ok(());
    }
    let name = carrier.name();
    if moment.before != moment.after {
        return Err(format!("{name}: the board has changed"));
    }
    let (returned, written) = match expected(moment.before, carrier, moment.record) {
        Ok(octets) => (0, octets),
        Err(refusal) => (refusal, Vec::new()),
    };
    if (moment.returned, moment.written) != (returned, written.as_slice()) {
        return Err(format!("{name}: has to return {returned} and write {written:02x?}"));
    }
    Ok(())
}

fn expected(board: &Board, carrier: Carrier, record: &[u8]) -> Result<Vec<u8>, u8> {
    let (front, octets) = record.split_at(carrier.component_at());
    let count = front[carrier.count_at()] as usize;
    let (component, fill) = octets.split_at(count.min(ROOM));
    if !(1..=ROOM).contains(&count) || fill.iter().any(|&octet| octet != 0) {
        return Err(5);
    }
    match *front {
        [_, high, low, _] => told(board, u16::from_be_bytes([high, low]), component),
        [_, a, b, c, d, _] => passed_on(board, u32::from_be_bytes([a, b, c, d]), component, record),
        _ => Err(3),
    }
}

/// A Leg facility's own octets with kind and leg exchanged.
fn passed_on(board: &Board, leg: u32, component: &[u8], record: &[u8]) -> Result<Vec<u8>, u8> {
    let row = row_of_leg(board, leg).ok_or(10)?;
    let Standing::Joined { partner, .. } = row.standing else { return Err(11) };
    if !subaddress(component) {
        return Err(12);
    }
    let mut octets = record.to_vec();
    octets[0] = 0x85;
    octets[1..5].copy_from_slice(&partner.to_be_bytes());
    Ok(octets)
}

/// The Tell to the party of an Active call. Message, description and subaddress request all
/// follow from the indication.
fn told(board: &Board, reference: u16, component: &[u8]) -> Result<Vec<u8>, u8> {
    if reference.is_multiple_of(0x8000) {
        return Err(5);
    }
    let row = row_of(board, |call| call.reference == Reference(reference)).ok_or(9)?;
    if row.call().is_none_or(|call| call.state != CallState::Active) {
        return Err(11);
    }
    let (active, number) = inform(component).ok_or(12)?;
    let mut octets = vec![0x82];
    octets.extend(row.leg.to_be_bytes());
    octets.extend([1 - active, 0xE9 + active]);
    match number {
        Some(digits) if active == 1 => {
            let mark = if digits.is_empty() { 2 } else { 1 };
            octets.extend([mark, 1, digits.len() as u8]);
            octets.extend(digits);
        }
        _ => octets.extend([0, active, 0]),
    }
    octets.resize(25, 0);
    Ok(octets)
}

/// The octets behind the operation of an invoke that ends so.
fn argument(component: &[u8], operation: u8) -> Option<&[u8]> {
    let padded = |high, low| i8::try_from(i16::from_be_bytes([high, low])).is_ok();
    let (length, behind) = match *component {
        [0xA1, length, 2, 1, _, ref behind @ ..] => (length, behind),
        [0xA1, length, 2, 2, high, low, ref behind @ ..] if !padded(high, low) => (length, behind),
        _ => return None,
    };
    let argument = behind.strip_prefix(&[6, 6, 4, 0, 0x82, 0x71, 1, operation]);
    argument.filter(|_| length as usize + 2 == component.len())
}

/// Whether a component is a SubaddressTransfer invoke.
pub fn subaddress(component: &[u8]) -> bool {
    let fits = |length: u8, count: usize| length as usize == count && (1..=20).contains(&count);
    match argument(component, 3) {
        Some(&[4, length, ref octets @ ..]) => fits(length, octets.len()),
        Some(&[0x30, outer, 4, length, ref octets @ .., 1, 1, _]) if fits(length, octets.len()) => {
            outer as usize == octets.len() + 5
        }
        Some(&[0x30, outer, 4, length, ref octets @ ..]) => {
            fits(length, octets.len()) && outer as usize == octets.len() + 2
        }
        _ => false,
    }
}

/// The indication of an EctInform invoke and the digits of its number, if it has one: none of
/// them where that is restricted.
pub fn inform(component: &[u8]) -> Option<(u8, Option<&[u8]>)> {
    match *argument(component, 5)? {
        [0x30, 3, 0x0A, 1, active @ 0..=1] => Some((active, None)),
        [0x30, 5, 0x0A, 1, active @ 0..=1, 0x81, 0] => Some((active, Some(&[]))),
        [0x30, outer, 0x0A, 1, active @ 0..=1, 0xA0, inner, 0x80, count @ 1..=15, ref digits @ ..] => {
            let lengths = [outer, inner, count].map(usize::from);
            let right = lengths == [digits.len() + 7, digits.len() + 2, digits.len()];
            let numeric = digits.iter().all(|octet| (0x30..0x3A).contains(octet));
            (right && numeric).then_some((active, Some(digits)))
        }
        _ => None,
    }
}
