//! A log under construction, with the board it leads to, so that each next event can be
//! steered by what is on the board.

use crate::board::{Aux, Board, Call, CallState, LinkId, Reference, Row, Standing};
use crate::component::Operation;
use crate::event::event;
use crate::invoke::{Invoke, InvokeId, ROOM};
use crate::odd;
use crate::opening;
use crate::opens::Opens;
use crate::records;
use crate::reply::BUFFER;
use crate::rng::Rng;

pub struct Script<'a> {
    pub rng: &'a mut Rng,
    pub board: Board,
    pub log: Vec<u8>,
    /// Where each record begins.
    pub starts: Vec<usize>,
    /// References, LinkIds and legs seen so far, for events that come too late.
    pub old_references: Vec<Reference>,
    pub old_links: Vec<LinkId>,
    pub old_legs: Vec<u32>,
    /// Whether an invoke is at times sent padded first, which is rejected.
    pub pads: bool,
    pub opens: Opens,
}

impl<'a> Script<'a> {
    pub fn new(rng: &'a mut Rng, subscribed: u8, alerting: u8) -> Script<'a> {
        let (_, board) = opening::old_log(subscribed, alerting);
        let log = vec![subscribed, alerting];
        let (starts, old_references, old_links, old_legs) = (Vec::new(), Vec::new(), Vec::new(), Vec::new());
        let (pads, opens) = (true, Opens::Any);
        Script { rng, board, log, starts, old_references, old_links, old_legs, pads, opens }
    }

    pub fn events(&self) -> usize {
        self.starts.len()
    }

    /// Adds a record and plays it; gives what it returned.
    pub fn put(&mut self, record: &[u8]) -> u8 {
        self.starts.push(self.log.len());
        self.log.extend_from_slice(record);
        event(&mut self.board, record, &mut [0; BUFFER]).returned
    }

    pub fn facility(&mut self, reference: Reference, component: &[u8]) -> u8 {
        self.put(&records::facility(reference, component))
    }

    /// A row that passes the test, each with the same chance.
    fn pick_row(&mut self, test: impl Fn(&Row) -> bool) -> Option<Row> {
        let fitting = self.board.rows.iter().filter(|row| test(row)).count();
        if fitting == 0 {
            return None;
        }
        let nth = self.rng.below(fitting);
        self.board.rows.iter().filter(|row| test(row)).nth(nth).copied()
    }

    pub fn pick_call(&mut self) -> Option<Call> {
        self.pick_call_with(|_| true)
    }

    pub fn pick_call_with(&mut self, test: impl Fn(&Call) -> bool) -> Option<Call> {
        self.pick_row(|row| row.call().is_some_and(&test))?.call().copied()
    }

    pub fn pick_leg(&mut self) -> Option<u32> {
        self.pick_row(|row| row.standing != Standing::Empty).map(|row| row.leg)
    }

    pub fn pick_joined(&mut self) -> Option<u32> {
        self.pick_row(|row| matches!(row.standing, Standing::Joined { .. })).map(|row| row.leg)
    }

    pub fn pick_alerting(&mut self) -> Option<u32> {
        self.pick_row(|row| matches!(row.standing, Standing::Joined { alerts: true, .. })).map(|row| row.leg)
    }

    /// A leg whose call is with the served user.
    pub fn pick_served(&mut self) -> Option<u32> {
        self.pick_row(|row| row.call().is_some()).map(|row| row.leg)
    }

    /// A leg seen so far that is not on the board; none where the one taken is there.
    pub fn pick_old_leg(&mut self) -> Option<u32> {
        if self.old_legs.is_empty() {
            return None;
        }
        let leg = self.rng.pick(&self.old_legs);
        Some(leg).filter(|&leg| self.absent(leg))
    }

    /// A reference that no call has; often one that a call had.
    pub fn absent_reference(&mut self) -> Reference {
        if !self.old_references.is_empty() && self.rng.percent(60) {
            let reference = self.rng.pick(&self.old_references);
            if self.call(reference).is_none() {
                return reference;
            }
        }
        self.fresh_reference()
    }

    fn absent(&self, leg: u32) -> bool {
        self.board.rows.iter().all(|row| row.leg != leg || row.standing == Standing::Empty)
    }

    pub fn call(&self, reference: Reference) -> Option<Call> {
        let calls = self.board.rows.iter().filter_map(Row::call);
        calls.copied().find(|call| call.reference == reference)
    }

    pub fn legs(&self) -> usize {
        self.board.rows.iter().filter(|row| row.standing != Standing::Empty).count()
    }

    /// A leg that is not on the board.
    pub fn fresh_leg(&mut self) -> u32 {
        const EDGES: [u32; 6] = [0, 1, 0x7FFF_FFFF, 0x8000_0000, 0xFFFF_FFFE, 0xFFFF_FFFF];
        loop {
            let leg = match self.rng.below(10) {
                0 => self.rng.pick(&EDGES),
                1..=6 => self.rng.below(200) as u32,
                _ => self.rng.draw() as u32,
            };
            if self.absent(leg) {
                return leg;
            }
        }
    }

    /// A valid reference that is not in use; at times the twin of one that is.
    pub fn fresh_reference(&mut self) -> Reference {
        const EDGES: [u16; 5] = [1, 0x7FFF, 0x8001, 0xFFFF, 0x4000];
        loop {
            let twin = self.pick_call().map_or(1, |call| call.reference.0) ^ 0x8000;
            let value = match self.rng.below(10) {
                0 => self.rng.pick(&EDGES),
                1 => twin,
                2..=6 => self.rng.below(200) as u16,
                _ => self.rng.draw() as u16,
            };
            let reference = Reference(value);
            if reference.valid() && self.call(reference).is_none() {
                return reference;
            }
        }
    }

    /// An invoke identifier: where the sign or the number of octets changes, of one octet,
    /// or from all over.
    fn identifier(&mut self) -> InvokeId {
        const BORDERS: [i16; 8] = [-32768, -129, -128, -1, 0, 127, 128, 32767];
        InvokeId(match self.rng.below(4) {
            0 => self.rng.pick(&BORDERS),
            1 => self.rng.below(256) as i16 - 128,
            _ => self.rng.draw() as i16,
        })
    }

    pub fn identifier_element(&mut self) -> Vec<u8> {
        records::short_integer(self.identifier().0)
    }

    /// An invoke as the writer gives it.
    pub fn invoke(&mut self, operation: Operation) -> Vec<u8> {
        let mut buffer = [0; ROOM];
        let invoke = Invoke { identifier: self.identifier(), operation };
        let count = invoke.write(&mut buffer).expect("the buffer is long enough");
        buffer[..count].to_vec()
    }

    /// An invoke with what stands behind the identifier padded, 6 or a LinkId of one octet, or
    /// else the identifier; at times both.
    fn padded(&mut self, operation: Operation) -> Vec<u8> {
        let one_octet = match operation {
            Operation::Execute => true,
            Operation::Explicit(link) => i8::try_from(link.0).is_ok(),
            Operation::LinkRequest => false,
        };
        let behind = one_octet && self.rng.percent(60);
        let identifier =
            if behind && self.rng.percent(80) { self.identifier_element() } else { odd::padded(self.rng) };
        let integer = if behind { records::long_integer } else { records::short_integer };
        match operation {
            Operation::Execute => records::invoke(&[&identifier, &integer(6)]),
            Operation::Explicit(link) => records::explicit(&identifier, &integer(link.0)),
            Operation::LinkRequest => records::link_request(&identifier),
        }
    }

    /// Sends an invoke on a call; gives what the event returned. The same padded may come
    /// first: it is rejected where it would be served without the padding.
    pub fn ask(&mut self, reference: Reference, operation: Operation) -> u8 {
        if self.pads && self.rng.percent(15) {
            let component = self.padded(operation);
            self.facility(reference, &component);
        }
        let component = self.invoke(operation);
        self.facility(reference, &component)
    }

    pub fn digits(&mut self) -> Vec<u8> {
        let count = match self.rng.below(8) {
            0 | 1 => 0,
            2 => 15,
            _ => self.rng.within(1, 14),
        };
        (0..count).map(|_| b'0' + self.rng.below(10) as u8).collect()
    }

    /// Sends an Open with a fresh leg and reference; a full board refuses it.
    pub fn open(&mut self, direction: u8) -> Reference {
        let (reference, leg) = (self.fresh_reference(), self.fresh_leg());
        let presentation = self.rng.percent(35) as u8;
        let digits = self.digits();
        let record = records::open(reference, leg, direction, presentation, &digits);
        let number_type = self.opens.number_type(self.rng);
        self.put(&records::perhaps_typed(record, number_type));
        self.old_references.push(reference);
        self.old_legs.push(leg);
        reference
    }

    /// Brings a call into a state that it can still reach.
    pub fn to_state(&mut self, reference: Reference, state: CallState) {
        self.put(&records::progress(reference, state as u8));
    }

    /// Brings a call to Held or Idle by the steps that are permitted.
    pub fn to_aux(&mut self, reference: Reference, goal: Aux) {
        while let Some(call) = self.call(reference).filter(|call| call.aux != goal && call.may_hold()) {
            let step = match (call.aux, goal) {
                (Aux::Idle, _) => Aux::HoldRequest,
                (Aux::HoldRequest | Aux::RetrieveRequest, Aux::Held) => Aux::Held,
                (Aux::HoldRequest | Aux::RetrieveRequest, _) => Aux::Idle,
                (Aux::Held, _) => Aux::RetrieveRequest,
            };
            // A refusal would come again and again: only on a board that a fault of the engine has left.
            let refused = self.put(&records::hold(reference, step as u8)) != 0;
            if refused || (goal != Aux::Held && goal != Aux::Idle) {
                break;
            }
        }
    }

    /// Asks for a LinkId; gives the one the call then has.
    pub fn link(&mut self, reference: Reference) -> Option<LinkId> {
        self.ask(reference, Operation::LinkRequest);
        let link = self.call(reference).and_then(|call| call.link)?;
        self.old_links.push(link);
        Some(link)
    }
}
