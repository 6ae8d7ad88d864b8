//! Why a component is not the invoke that a Leg facility or an Inform asks for, where there is
//! one reason alone: with that repaired, it would be the invoke.

use crate::carrier::Carrier;
use crate::component::{whole, Element, OBJECT};
use crate::invoke::Invoke;
use crate::notice_component::{elements, fault};
use crate::records::{invoke, object};
use crate::seen_carrier::CarrierSeen;
use crate::tally::Seen;

const IDENTIFIER: &[u8] = &[0x02, 0x01, 0x05];

pub enum Reason<'a> {
    Seen(CarrierSeen),
    /// The argument, which each of the two events has its own reasons for.
    Argument(Element<'a>),
}

/// The reason; `left` is the octet that the count leaves behind, if there is one.
pub fn reason(carrier: Carrier, component: &[u8], left: Option<u8>) -> Reason<'_> {
    let around = front(carrier, component).or_else(|| count(carrier, component, left));
    let served = Invoke::read(component).map(|_| CarrierSeen::InvokeOfACall);
    let other = carrier.other().is_right(component).then_some(CarrierSeen::InvokeOfOther);
    let found = around.map(Reason::Seen).or_else(|| inside(carrier, component));
    found.unwrap_or(Reason::Seen(served.or(other).unwrap_or(CarrierSeen::Otherwise)))
}

/// The first octet, or the length.
fn front(carrier: Carrier, component: &[u8]) -> Option<CarrierSeen> {
    let &[first, length, ref contents @ ..] = component else { return None };
    let fits = contents.len();
    if carrier.is_right(&[&[0xA1, length], contents].concat()) {
        return Some(match first {
            0xA2 => CarrierSeen::FirstA2,
            0xA3 => CarrierSeen::FirstA3,
            0xA4 => CarrierSeen::FirstA4,
            0xA5 => CarrierSeen::FirstA5,
            _ => CarrierSeen::FirstOther,
        });
    }
    if length == 0x81 && carrier.is_right(&[&[first], contents].concat()) {
        return Some(CarrierSeen::LengthLong);
    }
    let right = carrier.is_right(&[&[first, fits as u8], contents].concat());
    match length as usize {
        length if right && length + 1 == fits => Some(CarrierSeen::LengthSmall),
        length if right && length == fits + 1 => Some(CarrierSeen::LengthLarge),
        _ => None,
    }
}

/// A count that takes in a fill octet, or leaves out the last octet of the component.
fn count(carrier: Carrier, component: &[u8], left: Option<u8>) -> Option<CarrierSeen> {
    if let Some((0, shorter)) = component.split_last() {
        if carrier.is_right(shorter) {
            return Some(CarrierSeen::CountLarge);
        }
    }
    let longer = [component, &[left?]].concat();
    carrier.is_right(&longer).then_some(CarrierSeen::CountSmallZero)
}

/// One of the elements, or what is behind them.
fn inside(carrier: Carrier, component: &[u8]) -> Option<Reason<'_>> {
    let &[0xA1, length, ref contents @ ..] = component else { return None };
    if length as usize != contents.len() {
        return None;
    }
    let list = elements(contents);
    let octets: Vec<&[u8]> = list.iter().map(|element| element.whole).collect();
    if !whole(contents, 1) {
        return broken(carrier, contents, &octets).map(Reason::Seen);
    }
    if octets.len() > 3 && carrier.is_right(&invoke(&octets[..3])) {
        return Some(Reason::Seen(behind(carrier, &list[3..])));
    }
    let right: [&[u8]; 3] = [IDENTIFIER, &object(carrier.operation()), carrier.argument()];
    let fits = |place: usize, others| carrier.is_right(&with(&octets, place, others, right[place]));
    let absent = || (0..3).find(|&place| fits(place, 0));
    match (0..3).find(|&place| fits(place, 1)) {
        Some(0) => Some(Reason::Seen(identifier(&list[0]))),
        Some(1) => Some(Reason::Seen(operation(carrier, &list[1]))),
        Some(_) => Some(Reason::Argument(list[2])),
        None => absent().map(|place| {
            let seen = [CarrierSeen::IdAbsent, CarrierSeen::OperationAbsent, CarrierSeen::ArgumentAbsent];
            Reason::Seen(seen[place])
        }),
    }
}

/// The invoke with an element in place of so many others.
fn with(octets: &[&[u8]], place: usize, others: usize, element: &[u8]) -> Vec<u8> {
    let mut octets = octets.to_vec();
    if place + others <= octets.len() {
        octets.splice(place..place + others, [element]);
    }
    invoke(&octets)
}

/// Why the octets behind the operation are not whole elements.
fn broken(carrier: Carrier, contents: &[u8], octets: &[&[u8]]) -> Option<CarrierSeen> {
    let [identifier, operation, ..] = octets else { return None };
    if !carrier.is_right(&invoke(&[identifier, operation, carrier.argument()])) {
        return None;
    }
    match fault(contents, 1)? {
        Seen::ElementCut => Some(CarrierSeen::BrokenCut),
        Seen::ElementTag => Some(CarrierSeen::BrokenTag),
        Seen::ElementLength => Some(CarrierSeen::BrokenLength),
        Seen::DepthFive => Some(CarrierSeen::BrokenDepth),
        _ => None,
    }
}

fn behind(carrier: Carrier, further: &[Element]) -> CarrierSeen {
    let [element] = further else { return CarrierSeen::BehindSeveral };
    match (carrier, element.tag, element.contents) {
        (_, 0x05, []) => CarrierSeen::Behind0500,
        (_, 0x00, []) => CarrierSeen::Behind0000,
        (Carrier::LegFacility, 0x04, _) | (Carrier::Inform, 0x0A, _) => CarrierSeen::BehindFirst,
        (Carrier::LegFacility, 0x01, _) | (Carrier::Inform, 0x81 | 0xA0, _) => CarrierSeen::BehindSecond,
        _ => CarrierSeen::BehindElse,
    }
}

fn identifier(element: &Element) -> CarrierSeen {
    match (element.tag, element.contents) {
        (0x02, []) => CarrierSeen::IdEmpty,
        (0x02, [0x00, _]) => CarrierSeen::IdPadded00,
        (0x02, [_, _]) => CarrierSeen::IdPaddedFF,
        (0x02, _) => CarrierSeen::IdThree,
        _ => CarrierSeen::IdTag,
    }
}

fn operation(carrier: Carrier, element: &Element) -> CarrierSeen {
    let own = carrier.operation();
    match (element.tag, element.contents.strip_prefix(&OBJECT)) {
        (0x06, Some([0x01])) => CarrierSeen::Operation01,
        (0x06, Some([0x02])) => CarrierSeen::Operation02,
        (0x06, Some([0x04])) => CarrierSeen::Operation04,
        (0x06, Some([0x06])) => CarrierSeen::Operation06,
        (0x06, Some(&[end])) if end == carrier.other().operation() => CarrierSeen::OperationOther,
        (0x06, Some([_])) => CarrierSeen::OperationEnd,
        (0x06, Some([])) => CarrierSeen::OperationShort,
        (0x06, Some(&[end, _])) if end == own => CarrierSeen::OperationLong,
        (0x06, _) => CarrierSeen::OperationElse,
        (0x02, _) => match element.integer() {
            Some(6) => CarrierSeen::Local6,
            Some(value) if value == own as i16 => CarrierSeen::LocalOwn,
            _ => CarrierSeen::LocalElse,
        },
        _ => CarrierSeen::OperationTag,
    }
}
