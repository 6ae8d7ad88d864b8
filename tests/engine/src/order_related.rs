//! Logs that end with two records which the request leaves out: on one reference, or one of them of another kind.

use crate::board::Row;
use crate::carrier::Carrier;
use crate::couples::Couples;
use crate::exchange::Exchange;
use crate::logs::steered;
use crate::moving::whole_records;
use crate::near;
use crate::odd;
use crate::play::start;
use crate::records;
use crate::rng::Rng;
use crate::stepped::{events, reference};

/// The last two records are exchanged.
pub fn exchange(rng: &mut Rng) -> Exchange {
    loop {
        let log = steered(rng);
        let Some((_, rest)) = start(&log) else { continue };
        let records: Vec<&[u8]> = whole_records(rest).collect();
        let count = rng.within(0, records.len());
        let mut couples = Couples::new(rng, log[0], log[1]);
        records[..count].iter().for_each(|record| couples.event(record));
        let Some(mut two) = related(&mut couples) else { continue };
        if couples.percent(50) {
            two.reverse();
        }
        let (places, mut log) = (vec![couples.script.events()], couples.script.log);
        log.extend(two.concat());
        return Exchange { log, places };
    }
}

fn related(couples: &mut Couples) -> Option<[Vec<u8>; 2]> {
    match couples.script.rng.weighted(&[24, 18, 14, 18, 10, 9, 7]) {
        0 => Some(on_one(couples)),
        1 => Some(open(couples)),
        2 => release(couples),
        3 => facility(couples),
        4 => inform(couples),
        kind => joined(couples, kind == 5),
    }
}

/// Any two on one reference, at times equal.
fn on_one(couples: &mut Couples) -> [Vec<u8>; 2] {
    let direction = couples.script.rng.below(2) as u8;
    let reference = match couples.script.rng.below(10) {
        0..5 => couples.situated(),
        5..8 => couples.script.open(direction),
        _ => couples.some_reference(),
    };
    [0, 1].map(|_| couples.script.rng.pick(&events(reference)).to_vec())
}

fn open(couples: &mut Couples) -> [Vec<u8>; 2] {
    let script = &mut couples.script;
    let (reference, leg) = (script.absent_reference(), script.fresh_leg());
    let (direction, digits) = (script.rng.below(2) as u8, script.digits());
    let open = records::open(reference, leg, direction, 0, &digits);
    let number_type = script.rng.pick(&[None, None, None, Some(0), Some(1), Some(2)]);
    let named = if couples.percent(60) { reference } else { couples.some_reference() };
    let event = couples.script.rng.pick(&events(named));
    [records::perhaps_typed(open, number_type), event.to_vec()]
}

/// The Release of the call's own leg, or of another.
fn release(couples: &mut Couples) -> Option<[Vec<u8>; 2]> {
    let reference = couples.situated();
    let call = |row: &&Row| row.call().is_some_and(|call| call.reference == reference);
    let own = couples.script.board.rows.iter().find(call)?.leg;
    let other = couples.script.pick_leg()?;
    let leg = if couples.percent(70) { own } else { other };
    Some([records::release(leg), couples.event_on(reference).to_vec()])
}

/// Beside the event that a transfer waits for, beside one that follows, or any.
fn facility(couples: &mut Couples) -> Option<[Vec<u8>; 2]> {
    if couples.percent(25) {
        let (named, other) = (couples.situated(), couples.some_reference());
        let component = odd::component(&mut couples.script);
        return Some([records::facility(named, &component), couples.event_on(other).to_vec()]);
    }
    let transfer = couples.transfer()?;
    let [first, second] = transfer.last;
    couples.script.put(&first);
    if couples.percent(50) {
        return Some([transfer.facility, second.to_vec()]);
    }
    couples.script.put(&second);
    let named = reference(&couples.script.rng.pick(&[first, second]))?;
    Some([transfer.facility, couples.event_on(named).to_vec()])
}

fn inform(couples: &mut Couples) -> Option<[Vec<u8>; 2]> {
    let reference = couples.situated();
    let component = near::right(&mut couples.script, Carrier::Inform);
    Some([records::inform(reference, &component), couples.event_on(reference).to_vec()])
}

/// An Answer, or a subaddress, of a joined leg; where none alerts, two calls are transferred.
fn joined(couples: &mut Couples, answer: bool) -> Option<[Vec<u8>; 2]> {
    if couples.script.pick_alerting().is_none() {
        couples.transferred();
    }
    let reference = couples.situated();
    let record = if answer {
        records::answer(couples.script.pick_alerting()?)
    } else {
        let leg = couples.script.pick_joined()?;
        records::leg_facility(leg, &near::right(&mut couples.script, Carrier::LegFacility))
    };
    Some([record, couples.event_on(reference).to_vec()])
}
