//! Writing the three invokes into a lent buffer, as a terminal sends them.

use crate::component::{self, take, Operation, Reading};
use crate::records::{execute, explicit_link, link_request, short_integer};

/// A buffer has at least so many octets: as many as the longest component.
pub const ROOM: usize = 32;

/// An invoke identifier as a number, from -32768 to 32767. Neither a LinkId nor a reference.
#[derive(Clone, Copy, PartialEq, Eq, Hash, Debug)]
pub struct InvokeId(pub i16);

#[derive(Clone, Copy, PartialEq, Eq, Hash, Debug)]
pub struct Invoke {
    pub identifier: InvokeId,
    pub operation: Operation,
}

impl Invoke {
    /// What a component is read as, its numbers by value; none where it is no invoke.
    pub fn read(component: &[u8]) -> Option<Invoke> {
        let Reading::Invoke { identifier, operation } = component::read(component) else { return None };
        let (element, _) = take(identifier)?;
        Some(Invoke { identifier: InvokeId(element.integer()?), operation })
    }

    /// Writes the octets into the front of the buffer and gives their number; what lies
    /// beyond is kept. Refused with 1 where the buffer is too short, which is kept whole.
    pub fn write(&self, buffer: &mut [u8]) -> Result<usize, u8> {
        if buffer.len() < ROOM {
            return Err(1);
        }
        let octets = self.octets();
        buffer[..octets.len()].copy_from_slice(&octets);
        Ok(octets.len())
    }

    /// The component, integers in fewest octets.
    fn octets(&self) -> Vec<u8> {
        let identifier = short_integer(self.identifier.0);
        match self.operation {
            Operation::Execute => execute(&identifier),
            Operation::Explicit(link) => explicit_link(&identifier, link),
            Operation::LinkRequest => link_request(&identifier),
        }
    }
}
