//! The board: 64 rows, two options and the next LinkId candidate.

use crate::rules::RuleSet;

pub const ROWS: usize = 64;
pub const MAX_LIVE: usize = 16;
pub const OUTGOING: u8 = 0;
pub const INCOMING: u8 = 1;
pub const RESTRICTED: u8 = 1;
/// Types of number. There are no others.
pub const UNKNOWN: u8 = 0;
pub const INTERNATIONAL: u8 = 1;
pub const NATIONAL: u8 = 2;

/// A call reference. Never mixed up with a LinkId, which is signed.
#[derive(Clone, Copy, PartialEq, Eq, Hash, Debug)]
pub struct Reference(pub u16);

impl Reference {
    /// The top bit is free, the other fifteen are not all zero.
    pub fn valid(self) -> bool {
        self.0 & 0x7FFF != 0
    }
}

/// A LinkId, from -32768 to 32767.
#[derive(Clone, Copy, PartialEq, Eq, Hash, Debug)]
pub struct LinkId(pub i16);

impl LinkId {
    /// The value after; 32767 is followed by -32768.
    pub fn next(self) -> LinkId {
        LinkId(self.0.wrapping_add(1))
    }
}

#[derive(Clone, Copy, PartialEq, Eq, Debug)]
#[repr(u8)]
pub enum CallState {
    Proceeding = 3,
    Delivered = 4,
    Received = 7,
    Active = 10,
}

#[derive(Clone, Copy, PartialEq, Eq, Debug)]
#[repr(u8)]
pub enum Aux {
    Idle = 0,
    HoldRequest = 1,
    Held = 2,
    RetrieveRequest = 3,
}

impl Aux {
    pub fn from_octet(octet: u8) -> Option<Aux> {
        match octet {
            0 => Some(Aux::Idle),
            1 => Some(Aux::HoldRequest),
            2 => Some(Aux::Held),
            3 => Some(Aux::RetrieveRequest),
            _ => None,
        }
    }
}

/// A call with the served user.
#[derive(Clone, Copy, PartialEq, Eq, Debug)]
pub struct Call {
    pub reference: Reference,
    pub direction: u8,
    pub state: CallState,
    pub aux: Aux,
    pub link: Option<LinkId>,
}

impl Call {
    /// Fields in range and in agreement with each other.
    pub fn sound(&self) -> bool {
        let way = match self.state {
            CallState::Proceeding | CallState::Delivered => self.direction == OUTGOING,
            CallState::Received => self.direction == INCOMING,
            CallState::Active => self.direction <= INCOMING,
        };
        way && self.reference.valid() && (self.aux == Aux::Idle || self.may_hold())
    }

    /// Auxiliary states other than Idle exist in Delivered and Active alone.
    pub fn may_hold(&self) -> bool {
        matches!(self.state, CallState::Delivered | CallState::Active)
    }
}

#[derive(Clone, Copy, PartialEq, Eq, Debug)]
pub enum Standing {
    Empty,
    Served(Call),
    Joined { partner: u32, alerts: bool },
}

/// Digit count, then fifteen digit octets: the order in which records carry them.
#[derive(Clone, Copy, PartialEq, Eq, Debug)]
pub struct Number(pub [u8; 16]);

impl Number {
    pub const NONE: Number = Number([0; 16]);

    /// At most fifteen digits, their count in front and zeros behind.
    pub fn of(digits: &[u8]) -> Number {
        let mut octets = [0; 16];
        octets[0] = digits.len() as u8;
        octets[1..=digits.len()].copy_from_slice(digits);
        Number(octets)
    }

    pub fn count(&self) -> u8 {
        self.0[0]
    }

    /// Count at most 15, that many ASCII digits, then zeros; all octets at once.
    pub fn sound(&self) -> bool {
        const THREES: u128 = 0x3030_3030_3030_3030_3030_3030_3030_3030;
        const ROOM: u128 = 0x7676_7676_7676_7676_7676_7676_7676_7676;
        const TOPS: u128 = 0x8080_8080_8080_8080_8080_8080_8080_8080;
        let count = self.count();
        if count > 15 {
            return false;
        }
        let digits = u128::from_le_bytes(self.0) >> 8;
        let used = (1u128 << (8 * count)) - 1;
        // A digit octet less 0x30 is at most 9; adding 0x76 then leaves its top bit clear.
        let values = digits ^ (THREES & used);
        digits & !used == 0 && (values | ((values & !TOPS) + ROOM)) & TOPS == 0
    }
}

/// One row: the far party and its standing.
#[derive(Clone, Copy, PartialEq, Eq, Debug)]
pub struct Row {
    pub leg: u32,
    pub standing: Standing,
    pub presentation: u8,
    pub number_type: u8,
    pub number: Number,
}

impl Row {
    pub const EMPTY: Row = Row {
        leg: 0,
        standing: Standing::Empty,
        presentation: 0,
        number_type: UNKNOWN,
        number: Number::NONE,
    };

    /// What an empty row must hold besides its standing.
    pub fn blank(&self) -> bool {
        (self.leg, self.presentation, self.number_type) == (0, 0, UNKNOWN)
            && u128::from_le_bytes(self.number.0) == 0
    }

    pub fn party_sound(&self) -> bool {
        self.presentation <= RESTRICTED && self.number_type <= NATIONAL && self.number.sound()
    }

    pub fn call(&self) -> Option<&Call> {
        match &self.standing {
            Standing::Served(call) => Some(call),
            _ => None,
        }
    }
}

#[derive(Clone, PartialEq, Eq, Debug)]
pub struct Board {
    pub rows: [Row; ROWS],
    pub subscribed: u8,
    pub alerting: u8,
    pub candidate: LinkId,
}

#[derive(Clone, Copy, PartialEq, Eq, Debug, Default)]
pub struct Counts {
    pub legs: usize,
    pub pairs: usize,
    pub links: usize,
}

impl Board {
    pub fn rules(&self) -> RuleSet {
        RuleSet::of(self.alerting)
    }

    /// With rows that are all empty.
    pub fn empty(subscribed: u8, alerting: u8) -> Board {
        Board { rows: [Row::EMPTY; ROWS], subscribed, alerting, candidate: LinkId(0) }
    }
}
