//! Reading an EctInform invoke, by which a private exchange says that it has transferred a call.

use crate::argument::argument;
use crate::board::{Number, UNKNOWN};
use crate::component::{take, ECT_INFORM};
use crate::reply::Told;

/// The most digits of a redirection number; the fewest are one.
pub const MOST_DIGITS: usize = 15;

/// How the other call of the transfer stands.
#[derive(Clone, Copy, PartialEq, Eq, Debug)]
pub enum Indication {
    Alerting = 0,
    Active = 1,
}

#[derive(Clone, Copy, PartialEq, Eq, Debug)]
pub struct EctInform {
    pub indication: Indication,
    pub number: Told,
}

/// What the invoke says; none where the component is no EctInform invoke.
pub fn read(component: &[u8]) -> Option<EctInform> {
    let argument = argument(component, ECT_INFORM).filter(|argument| argument.tag == 0x30)?;
    let (first, rest) = take(argument.contents)?;
    let indication = match (first.tag, first.contents) {
        (0x0A, [0]) => Indication::Alerting,
        (0x0A, [1]) => Indication::Active,
        _ => return None,
    };
    Some(EctInform { indication, number: redirection(rest)? })
}

/// The redirection number: one element, or none at all.
fn redirection(octets: &[u8]) -> Option<Told> {
    if octets.is_empty() {
        return Some(Told::Unknown);
    }
    let (element, rest) = take(octets)?;
    match (element.tag, element.contents) {
        _ if !rest.is_empty() => None,
        (0x81, []) => Some(Told::Withheld),
        (0xA0, contents) => digits(contents).map(|number| Told::Given(UNKNOWN, number)),
        _ => None,
    }
}

fn digits(octets: &[u8]) -> Option<Number> {
    let (element, rest) = take(octets)?;
    let digits = element.contents;
    let right = (1..=MOST_DIGITS).contains(&digits.len()) && digits.iter().all(u8::is_ascii_digit);
    (element.tag == 0x80 && right && rest.is_empty()).then(|| Number::of(digits))
}
