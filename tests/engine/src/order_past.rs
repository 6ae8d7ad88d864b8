//! Which references calls had so far in a log, and how they ended, by the records and by what was written.

use crate::board::Reference;
use crate::either_order::Step;
use crate::event::{FACILITY, OPEN, OPEN_TYPED, RELEASE};

/// Behind the Reply of a transfer.
const DROPS: usize = 36;
const DROP: u8 = 0x83;

#[derive(Clone, Copy, PartialEq, Eq, Debug)]
pub enum End {
    Released,
    /// With the other call of the transfer.
    Joined(Reference),
}

#[derive(Default)]
pub struct Past {
    /// Each reference that was a call's, with its end if it has ended.
    calls: Vec<(Reference, Option<End>)>,
}

fn dropped(octets: &[u8]) -> Option<Reference> {
    match *octets {
        [DROP, high, low, ..] => Some(Reference(u16::from_be_bytes([high, low]))),
        _ => None,
    }
}

/// The references of a transfer, the named call's first.
pub fn transferred(record: &[u8], written: &[u8]) -> Option<[Reference; 2]> {
    let drops = written.get(DROPS..).filter(|_| record[0] == FACILITY)?;
    Some([dropped(drops)?, dropped(&drops[3..])?])
}

/// The call that a Release ended.
pub fn released(record: &[u8], written: &[u8]) -> Option<Reference> {
    dropped(written).filter(|_| record[0] == RELEASE)
}

/// The call that an Open made.
pub fn opened(record: &[u8], returned: u8) -> Option<Reference> {
    match *record {
        [OPEN | OPEN_TYPED, high, low, ..] if returned == 0 => {
            Some(Reference(u16::from_be_bytes([high, low])))
        }
        _ => None,
    }
}

impl Past {
    pub fn keep(&mut self, record: &[u8], step: &Step) {
        if let Some(reference) = opened(record, step.returned) {
            self.set(reference, None);
        }
        if let Some(reference) = released(record, &step.written) {
            self.set(reference, Some(End::Released));
        }
        if let Some([named, other]) = transferred(record, &step.written) {
            self.set(named, Some(End::Joined(other)));
            self.set(other, Some(End::Joined(named)));
        }
    }

    fn set(&mut self, reference: Reference, end: Option<End>) {
        self.calls.retain(|(own, _)| *own != reference);
        self.calls.push((reference, end));
    }

    pub fn end(&self, reference: Reference) -> Option<End> {
        self.calls.iter().find(|(own, _)| *own == reference)?.1
    }

    pub fn ever(&self, reference: Reference) -> bool {
        self.calls.iter().any(|(own, _)| *own == reference)
    }
}
