//! Why an argument is not that of an EctInform invoke.

use crate::component::Element;
use crate::inform::{self, Indication};
use crate::notice_component::elements;
use crate::records::{ect_inform, element};
use crate::seen_inform::{InformSeen, NumberSeen};

const ACTIVE: &[u8] = &[0x0A, 0x01, 0x01];

/// Where the number alone is wrong, the reason goes with the indication.
#[derive(Clone, Copy, PartialEq, Eq, Debug)]
pub enum Wrong {
    Argument(InformSeen),
    Number(Indication, NumberSeen),
}

/// The indication of a 30 with these elements, if it is right.
fn holding(elements: &[&[u8]]) -> Option<Indication> {
    let argument = element(0x30, &elements.concat());
    inform::read(&ect_inform(&[0x02, 0x01, 0x05], &argument)).map(|inform| inform.indication)
}

fn is_number(octets: &[u8]) -> bool {
    holding(&[ACTIVE, octets]).is_some()
}

/// Whether an A0 may hold these octets.
fn is_held(octets: &[u8]) -> bool {
    is_number(&element(0xA0, octets))
}

fn are_digits(octets: &[u8]) -> bool {
    is_held(&element(0x80, octets))
}

/// The reason; none where there are several.
pub fn argument(argument: &Element) -> Option<Wrong> {
    let list = elements(argument.contents);
    let octets: Vec<&[u8]> = list.iter().map(|element| element.whole).collect();
    let seen = match (argument.tag, octets.as_slice()) {
        (0x30, []) => InformSeen::Empty,
        (0x30, [one, two, further @ ..]) if one == two => {
            holding(&[&[*two], further].concat())?;
            InformSeen::IndicationTwice
        }
        (0x30, [one, ..]) => match holding(&[one]) {
            Some(indication) => return Some(Wrong::Number(indication, number(&list[1..])?)),
            None => first(&list[0], &octets)?,
        },
        (tag, _) => {
            holding(&[argument.contents])?;
            match tag {
                0x31 => InformSeen::Tag31,
                0x04 => InformSeen::Tag04,
                _ => InformSeen::TagElse,
            }
        }
    };
    Some(Wrong::Argument(seen))
}

/// What stands first in the 30 and is no indication.
fn first(element: &Element, octets: &[&[u8]]) -> Option<InformSeen> {
    match octets {
        [only] if is_number(only) => {
            return Some(if element.tag == 0x81 { InformSeen::Alone81 } else { InformSeen::AloneA0 });
        }
        [one, two] if holding(&[two, one]).is_some() => return Some(InformSeen::NumberFirst),
        _ => holding(&[&[ACTIVE], &octets[1..]].concat())?,
    };
    Some(match (element.tag, element.contents) {
        (0x0A, []) => InformSeen::IndicationEmpty,
        (0x0A, [0x02]) => InformSeen::IndicationValue2,
        (0x0A, [0xFF]) => InformSeen::IndicationValueFF,
        (0x0A, [_]) => InformSeen::IndicationValue,
        (0x0A, [_, _]) => InformSeen::IndicationTwo,
        (0x02, [0 | 1]) => InformSeen::Indication02,
        (_, [0 | 1]) => InformSeen::IndicationTag,
        _ => return None,
    })
}

/// What follows a right indication and is no redirection number.
fn number(list: &[Element]) -> Option<NumberSeen> {
    let (first, second) = match list {
        [element] => return one(element),
        [first, second] if is_number(first.whole) => (first, second),
        _ => return None,
    };
    Some(match (first.tag, second.tag, is_number(second.whole), second.whole) {
        (0x81, 0x81, true, _) => NumberSeen::Twice81,
        (0x81, _, true, _) => NumberSeen::Both81First,
        (_, 0x81, true, _) => NumberSeen::BothA0First,
        (_, _, true, _) => NumberSeen::TwiceA0,
        (0x81, _, _, [0x05, 0x00]) => NumberSeen::NullBehind81,
        (_, _, _, [0x05, 0x00]) => NumberSeen::NullBehindA0,
        _ => NumberSeen::ElseBehind,
    })
}

fn one(number: &Element) -> Option<NumberSeen> {
    Some(match (number.tag, number.contents) {
        (0x81, [_]) => NumberSeen::Restricted1,
        (0x81, _) => NumberSeen::RestrictedMore,
        (0x80, []) => NumberSeen::Empty80,
        (0x80, digits) if are_digits(digits) => NumberSeen::Digits80,
        (0xA1, []) => NumberSeen::EmptyA1,
        (0xA1, contents) if is_held(contents) => NumberSeen::HoldingA1,
        (0x05, []) => NumberSeen::Null,
        (0xA0, contents) => return inner(&elements(contents)),
        (_, contents) if is_held(contents) => NumberSeen::Tag,
        _ => return None,
    })
}

/// What an A0 holds.
fn inner(list: &[Element]) -> Option<NumberSeen> {
    Some(match list {
        [] => NumberSeen::EmptyA0,
        [only] => match (only.tag, only.contents) {
            (0x80, octets) => return digits(octets),
            (0x81, []) => NumberSeen::Inner8100,
            (0x81, octets) if are_digits(octets) => NumberSeen::Inner81,
            (0x82, octets) if are_digits(octets) => NumberSeen::Inner82,
            (_, octets) if are_digits(octets) => NumberSeen::InnerTag,
            (_, octets) if is_held(octets) => NumberSeen::InnerDeeper,
            _ => return None,
        },
        [first, second] if is_held(first.whole) => match second.whole {
            _ if is_held(second.whole) => NumberSeen::InnerTwo,
            [0x05, 0x00] => NumberSeen::InnerNull,
            _ => NumberSeen::InnerBehind,
        },
        _ => return None,
    })
}

/// The octets of an 80 that are no digits.
fn wrong_digits(octets: &[u8]) -> Vec<usize> {
    (0..octets.len()).filter(|&place| !octets[place].is_ascii_digit()).collect()
}

/// The number of digits, or the one octet that is none.
fn digits(octets: &[u8]) -> Option<NumberSeen> {
    Some(match (wrong_digits(octets).as_slice(), octets.len()) {
        ([], 0) => NumberSeen::Digits0,
        ([], 16) => NumberSeen::Digits16,
        ([], 17..) => NumberSeen::DigitsMore,
        (&[place], 1..=15) => match octets[place] {
            b'A'..=b'Z' | b'a'..=b'z' => NumberSeen::Letter,
            0x2F => NumberSeen::Octet2F,
            0x3A => NumberSeen::Octet3A,
            _ => NumberSeen::OctetElse,
        },
        _ => return None,
    })
}

/// Whether the one octet that is no digit is the first or the last of several.
pub fn at_an_end(octets: &[u8]) -> Option<NumberSeen> {
    match (wrong_digits(octets).as_slice(), octets.len()) {
        ([0], 2..) => Some(NumberSeen::WrongFirst),
        ([place], count @ 2..) if place + 1 == count => Some(NumberSeen::WrongLast),
        _ => None,
    }
}
