//! Two calls, each one Progress or Hold short of the states in which they are transferred.

use crate::board::{Aux, CallState, Reference, INCOMING, OUTGOING};
use crate::component::Operation;
use crate::couples::Couples;
use crate::event::{HOLD, PROGRESS};
use crate::records;
use crate::rules::RuleSet;
use crate::stepped::reference;

/// The two events that are still to come, and the Facility that then transfers.
pub struct Transfer {
    pub last: [[u8; 4]; 2],
    pub facility: Vec<u8>,
}

fn record(kind: u8, reference: Reference, value: u8) -> [u8; 4] {
    let [high, low] = reference.0.to_be_bytes();
    [kind, high, low, value]
}

impl Couples<'_> {
    /// None where no row is empty, or no LinkId is given that is needed.
    pub fn transfer(&mut self) -> Option<Transfer> {
        let american = self.script.board.rules() == RuleSet::American;
        let idle = american && self.percent(50);
        let aux = [if idle { Aux::Idle } else { Aux::Held }, Aux::Idle];
        let state =
            [CallState::Active, if self.percent(35) { CallState::Delivered } else { CallState::Active }];
        let turned = self.percent(50) as usize;
        let (first, first_last) = self.almost(aux[turned], state[0])?;
        let (second, second_last) = self.almost(aux[1 - turned], state[1])?;
        let (named, other) = if self.percent(50) { (first, second) } else { (second, first) };
        let operation = if american || self.percent(50) {
            Operation::Explicit(self.script.link(other)?)
        } else {
            Operation::Execute
        };
        let facility = records::facility(named, &self.script.invoke(operation));
        let mut last = [first_last, second_last];
        if self.percent(50) {
            last.reverse();
        }
        Some(Transfer { last, facility })
    }

    /// All three are played; the references of the two events.
    pub fn transferred(&mut self) -> Option<[Reference; 2]> {
        let Transfer { last, facility } = self.transfer()?;
        for record in [&last[0][..], &last[1], &facility] {
            self.script.put(record);
        }
        let [first, second] = last.map(|record| reference(&record));
        Some([first?, second?])
    }

    /// A new call, and the event that brings it into these states.
    fn almost(&mut self, aux: Aux, state: CallState) -> Option<(Reference, [u8; 4])> {
        let outgoing = state == CallState::Delivered || self.percent(60);
        let reference = self.script.open(if outgoing { OUTGOING } else { INCOMING });
        self.script.call(reference)?;
        let to_active = outgoing && state == CallState::Active;
        if self.percent(50) && (aux == Aux::Idle || to_active) {
            if aux == Aux::Held || to_active && self.percent(40) {
                self.script.to_state(reference, CallState::Delivered);
                self.script.to_aux(reference, aux);
            }
            return Some((reference, record(PROGRESS, reference, state as u8)));
        }
        self.script.to_state(reference, state);
        let steps: &[u8] = self.script.rng.pick(&[&[1], &[1, 2, 3]]);
        for &step in steps {
            self.script.put(&record(HOLD, reference, step));
        }
        Some((reference, record(HOLD, reference, aux as u8)))
    }
}
