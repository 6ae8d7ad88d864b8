//! Writing reply records into the lent buffer.

use crate::board::{LinkId, Number, Reference, Row, RESTRICTED, UNKNOWN};
use crate::component::OBJECT;

pub const BUFFER: usize = 128;
pub const ALERTING: u8 = 0xE9;
pub const ACTIVE: u8 = 0xEA;
pub const TELL: u8 = 0x82;
pub const TELL_TYPED: u8 = 0x86;

#[derive(Clone, Copy)]
pub enum Message {
    Facility = 0,
    Notify = 1,
}

/// A component for a Reply, zero filled.
pub struct Component {
    octets: [u8; 32],
    len: usize,
}

impl Component {
    /// Tag, length and identifier; the length grows with what is added.
    pub fn new(tag: u8, identifier: &[u8]) -> Component {
        let component = Component { octets: [0; 32], len: 2 };
        let mut component = component.with(identifier);
        component.octets[0] = tag;
        component
    }

    pub fn with(mut self, octets: &[u8]) -> Component {
        self.octets[self.len..self.len + octets.len()].copy_from_slice(octets);
        self.len += octets.len();
        self.octets[1] = self.len as u8 - 2;
        self
    }

    /// The octets without the zeros behind them.
    pub fn octets(&self) -> &[u8] {
        &self.octets[..self.len]
    }

    pub fn reject(identifier: &[u8], sort: u8, problem: u8) -> Component {
        Component::new(0xA4, identifier).with(&[sort, 1, problem])
    }

    pub fn error(identifier: &[u8], value: u8) -> Component {
        Component::new(0xA3, identifier).with(&[0x02, 1, value])
    }

    pub fn not_assigned(identifier: &[u8]) -> Component {
        Component::new(0xA3, identifier).with(&object(0x15))
    }

    pub fn result(identifier: &[u8]) -> Component {
        Component::new(0xA2, identifier)
    }

    /// The result of EctLinkIdRequest, the LinkId in fewest octets.
    pub fn link_result(identifier: &[u8], operation: u8, link: LinkId) -> Component {
        let [high, low] = link.0.to_be_bytes();
        let result = Component::result(identifier);
        if i8::try_from(link.0).is_ok() {
            result.with(&[0x30, 11]).with(&object(operation)).with(&[0x02, 1, low])
        } else {
            result.with(&[0x30, 12]).with(&object(operation)).with(&[0x02, 2, high, low])
        }
    }
}

fn object(last: u8) -> [u8; 8] {
    let [a, b, c, d, e] = OBJECT;
    [0x06, 6, a, b, c, d, e, last]
}

/// The records written so far. What lies beyond them in the buffer is never touched.
pub struct Replies<'a> {
    buffer: &'a mut [u8; BUFFER],
    used: usize,
}

impl<'a> Replies<'a> {
    pub fn new(buffer: &'a mut [u8; BUFFER]) -> Replies<'a> {
        Replies { buffer, used: 0 }
    }

    pub fn written(&self) -> usize {
        self.used
    }

    fn put(&mut self, octets: &[u8]) {
        self.buffer[self.used..self.used + octets.len()].copy_from_slice(octets);
        self.used += octets.len();
    }

    pub fn reply(&mut self, reference: Reference, component: &Component) {
        let [high, low] = reference.0.to_be_bytes();
        self.put(&[0x81, high, low, component.len as u8]);
        self.put(&component.octets);
    }

    pub fn tell(&mut self, leg: u32, message: Message, description: u8, request: u8, number: Told) {
        let [a, b, c, d] = leg.to_be_bytes();
        let kind = if number.typed() { TELL_TYPED } else { TELL };
        self.put(&[kind, a, b, c, d, message as u8, description, number.mark(), request]);
        match number {
            Told::Given(UNKNOWN, number) => self.put(&number.0),
            Told::Given(number_type, number) => {
                self.put(&[number_type]);
                self.put(&number.0);
            }
            _ => self.put(&Number::NONE.0),
        }
    }

    pub fn drop_call(&mut self, reference: Reference) {
        let [high, low] = reference.0.to_be_bytes();
        self.put(&[0x83, high, low]);
    }

    pub fn gone(&mut self, leg: u32) {
        let [a, b, c, d] = leg.to_be_bytes();
        self.put(&[0x84, a, b, c, d]);
    }

    /// A component of at most 64 octets, zeros behind it.
    pub fn pass_on(&mut self, leg: u32, component: &[u8]) {
        let [a, b, c, d] = leg.to_be_bytes();
        self.put(&[0x85, a, b, c, d, component.len() as u8]);
        self.put(component);
        self.put(&[0; 64][component.len()..]);
    }
}

/// A number as a party is told it; unknown also where none is sent.
#[derive(Clone, Copy, PartialEq, Eq, Debug)]
pub enum Told {
    Unknown,
    /// Its type, then its digits.
    Given(u8, Number),
    Withheld,
}

impl Told {
    /// The number of a row's party; without digits there is nothing to withhold.
    pub fn of(row: &Row) -> Told {
        match (row.number.count(), row.presentation) {
            (0, _) => Told::Unknown,
            (_, RESTRICTED) => Told::Withheld,
            _ => Told::Given(row.number_type, row.number),
        }
    }

    pub fn mark(self) -> u8 {
        match self {
            Told::Unknown => 0,
            Told::Given(..) => 1,
            Told::Withheld => 2,
        }
    }

    /// Whether the record has to say the type.
    pub fn typed(self) -> bool {
        matches!(self, Told::Given(number_type, _) if number_type != UNKNOWN)
    }
}
