//! What stands in front of two such events and behind them.

use crate::board::{Reference, Row};
use crate::carrier::Carrier;
use crate::combine;
use crate::couples::Couples;
use crate::near;
use crate::records;
use crate::stepped::permitted;

impl Couples<'_> {
    /// A call that is there or a new one, in any situation.
    pub fn situated(&mut self) -> Reference {
        let there = self.script.pick_call().filter(|_| self.script.rng.percent(55));
        let direction = self.script.rng.below(2) as u8;
        let reference = there.map_or_else(|| self.script.open(direction), |call| call.reference);
        let state = self.script.rng.pick(&[0, 4, 4, 10]);
        let call = self.script.call(reference);
        if state != 0 && call.is_some_and(|call| permitted(&call, &records::progress(reference, state))) {
            self.script.put(&records::progress(reference, state));
        }
        let aux = combine::some_aux(&mut self.script);
        combine::to(&mut self.script, reference, aux);
        reference
    }

    /// What may stand right behind: an event that names one of the two.
    pub fn follow(&mut self, reference: Reference) {
        let script = &mut self.script;
        let call = |row: &&Row| row.call().is_some_and(|call| call.reference == reference);
        let leg = script.board.rows.iter().find(call).map(|row| row.leg);
        let record = match script.rng.below(5) {
            0 => leg.map(records::release),
            1 => {
                script.link(reference);
                None
            }
            2 => {
                let component = near::right(script, Carrier::Inform);
                Some(records::inform(reference, &component))
            }
            3 => script.pick_alerting().map(records::answer),
            _ => {
                let leg = script.fresh_leg();
                script.old_references.push(reference);
                Some(records::open(reference, leg, script.rng.below(2) as u8, 0, b"21"))
            }
        };
        if let Some(record) = record {
            self.script.put(&record);
        }
    }
}
