//! What occurs where an integer is padded, and where it has the next value, which takes two octets.

use crate::component::{Element, Operation, Reading};
use crate::notice_component::{elements, further};
use crate::tally::{Seen, Tally};

/// What padded integers in one place are counted by.
struct Padded {
    /// First octet 00, first octet FF.
    first: [Seen; 2],
    unsubscribed: Seen,
}

/// By the place of the element: identifier, operation, LinkId.
const PADDED: [Padded; 3] = [
    Padded {
        first: [Seen::PaddedIdentifier00, Seen::PaddedIdentifierFF],
        unsubscribed: Seen::PaddedIdentifierUnsubscribed,
    },
    Padded {
        first: [Seen::PaddedOperation00, Seen::PaddedOperationFF],
        unsubscribed: Seen::PaddedOperationUnsubscribed,
    },
    Padded { first: [Seen::PaddedLink00, Seen::PaddedLinkFF], unsubscribed: Seen::PaddedLinkUnsubscribed },
];

pub fn integers(component: &[u8], reading: Reading, subscribed: u8, tally: &mut Tally) {
    match reading {
        Reading::Nothing => {}
        Reading::Reject { identifier, sort, problem } => {
            match (identifier, sort, problem) {
                ([5, 0], 0x80, 1) => padded(component, 0, subscribed, tally),
                (_, 0x80, 1) => padded(component, 1, subscribed, tally),
                (_, 0x81, 2) => padded(component, 2, subscribed, tally),
                (_, 0x81, 1) => {
                    let operation = elements(&component[2..])[1].whole;
                    next_to_padded(operation, [Seen::Operation0080, Seen::OperationFF7F], tally);
                }
                _ => {}
            }
            repeated(identifier, tally);
        }
        Reading::Invoke { identifier, operation } => {
            repeated(identifier, tally);
            passed_over(component, operation, tally);
        }
    }
}

/// The element at that place is not of the form asked for: perhaps because it is padded.
fn padded(component: &[u8], place: usize, subscribed: u8, tally: &mut Tally) {
    let list = elements(&component[2..]);
    let Some(element) = list.get(place).filter(|element| element.padded()) else { return };
    let Padded { first, unsubscribed } = &PADDED[place];
    tally.add(first[(element.contents[0] == 0xFF) as usize]);
    tally.add_if(subscribed == 0, *unsubscribed);
    if place == 1 {
        let served = element.contents[1] == 6;
        tally.add(if served { Seen::PaddedOperationServed } else { Seen::PaddedOperationUnknown });
    }
    tally.add(match *element.contents {
        [0x00, 0x00] => Seen::Padded0000,
        [0x00, 0x7F] => Seen::Padded007F,
        [0xFF, 0x80] => Seen::PaddedFF80,
        [0xFF, 0xFF] => Seen::PaddedFFFF,
        _ => return,
    });
}

fn repeated(identifier: &[u8], tally: &mut Tally) {
    next_to_padded(identifier, [Seen::Identifier0080, Seen::IdentifierFF7F], tally);
}

/// The two lawful integers next to the padded ones, which need their first octet for the sign.
fn next_to_padded(element: &[u8], seen: [Seen; 2], tally: &mut Tally) {
    tally.add_if(element == [2, 2, 0x00, 0x80], seen[0]);
    tally.add_if(element == [2, 2, 0xFF, 0x7F], seen[1]);
}

/// Padded integers behind the last element looked at, or inside one there.
fn passed_over(component: &[u8], operation: Operation, tally: &mut Tally) {
    let list = further(component, operation);
    let seen = match operation {
        Operation::Execute => Seen::PaddedBehindExecute,
        Operation::Explicit(_) => Seen::PaddedBehindExplicit,
        Operation::LinkRequest => Seen::PaddedBehindRequest,
    };
    tally.add_if(list.iter().any(Element::padded), seen);
    tally.add_if(list.iter().any(holds_padded), Seen::PaddedInside);
}

/// Whether a padded integer is inside this element, at any depth.
fn holds_padded(element: &Element) -> bool {
    let inner = if element.tag & 0x20 != 0 { elements(element.contents) } else { Vec::new() };
    inner.iter().any(|element| element.padded() || holds_padded(element))
}
