//! The two events whose component has to be an invoke with nothing behind its argument, by what
//! they have in common.

use crate::component::{ECT_INFORM, SUBADDRESS};
use crate::event::{INFORM, LEG_FACILITY};
use crate::inform;
use crate::subaddress::is_transfer;

/// Room for a component in a record of either event.
pub const ROOM: usize = 64;

#[derive(Clone, Copy, PartialEq, Eq, Debug)]
pub enum Carrier {
    LegFacility,
    Inform,
}

impl Carrier {
    pub const BOTH: [Carrier; 2] = [Carrier::LegFacility, Carrier::Inform];

    pub fn of(kind: u8) -> Option<Carrier> {
        match kind {
            LEG_FACILITY => Some(Carrier::LegFacility),
            INFORM => Some(Carrier::Inform),
            _ => None,
        }
    }

    pub fn other(self) -> Carrier {
        match self {
            Carrier::LegFacility => Carrier::Inform,
            Carrier::Inform => Carrier::LegFacility,
        }
    }

    pub fn name(self) -> &'static str {
        match self {
            Carrier::LegFacility => "Leg facility",
            Carrier::Inform => "Inform",
        }
    }

    /// The place of the count, behind the kind and the leg or the reference.
    pub fn count_at(self) -> usize {
        match self {
            Carrier::LegFacility => 5,
            Carrier::Inform => 3,
        }
    }

    pub fn component_at(self) -> usize {
        self.count_at() + 1
    }

    /// Octets of the record in all.
    pub fn length(self) -> usize {
        self.component_at() + ROOM
    }

    /// What the operation's object identifier ends with.
    pub fn operation(self) -> u8 {
        match self {
            Carrier::LegFacility => SUBADDRESS,
            Carrier::Inform => ECT_INFORM,
        }
    }

    /// An argument that is right.
    pub fn argument(self) -> &'static [u8] {
        match self {
            Carrier::LegFacility => &[0x04, 0x01, 0x37],
            Carrier::Inform => &[0x30, 0x03, 0x0A, 0x01, 0x01],
        }
    }

    /// Octets of the shortest and of the longest invoke.
    pub fn octets(self) -> [usize; 2] {
        match self {
            Carrier::LegFacility => [16, 41],
            Carrier::Inform => [18, 38],
        }
    }

    /// Whether the component is the invoke that the event asks for.
    pub fn is_right(self, component: &[u8]) -> bool {
        match self {
            Carrier::LegFacility => is_transfer(component),
            Carrier::Inform => inform::read(component).is_some(),
        }
    }
}
