//! What private exchanges send: Informs on Active calls, and others that are refused.

use crate::actions::fresh_call;
use crate::board::{Aux, CallState, Reference, Row};
use crate::carrier::Carrier;
use crate::component::Operation;
use crate::near;
use crate::near_inform;
use crate::records;
use crate::script::Script;

pub fn inform(script: &mut Script) {
    match script.rng.weighted(&[42, 38, 12, 4, 4]) {
        0 => told(script),
        1 => missed(script),
        2 => bad_record(script),
        3 => anything(script),
        _ => near::on_a_call(script, Carrier::Inform),
    }
}

/// An Inform that is right but perhaps for its reference; at times the call is transferred next.
fn told(script: &mut Script) {
    let reference = reference(script, [80, 12, 8]);
    let component = match own_digits(script, reference) {
        Some(digits) if script.rng.percent(10) => {
            let identifier = script.identifier_element();
            records::ect_inform(&identifier, &near_inform::active(&digits))
        }
        _ => near::right(script, Carrier::Inform),
    };
    script.put(&records::inform(reference, &component));
    if script.rng.percent(6) {
        transfer(script, reference);
    }
}

/// The digits of the row whose call has the reference; none where there are none.
fn own_digits(script: &Script, reference: Reference) -> Option<Vec<u8>> {
    let of_call = |row: &&Row| row.call().is_some_and(|call| call.reference == reference);
    let number = script.board.rows.iter().find(of_call)?.number;
    let count = number.count() as usize;
    (count > 0).then(|| number.0[1..=count].to_vec())
}

/// Transfers the call, so that the row's own number is told, and not the one received.
fn transfer(script: &mut Script, reference: Reference) {
    let alerts = script.rng.percent(30);
    let other = fresh_call(script, alerts);
    script.to_aux(reference, Aux::Held);
    if let Some(link) = script.link(other) {
        script.ask(reference, Operation::Explicit(link));
    }
}

fn missed(script: &mut Script) {
    let reference = reference(script, [94, 4, 2]);
    let component = near::miss(script, Carrier::Inform);
    script.put(&records::inform(reference, &component));
}

fn bad_record(script: &mut Script) {
    let reference = reference(script, [70, 15, 15]);
    let component = near::mostly_right(script, Carrier::Inform);
    let mut record = records::inform(reference, &component);
    if script.rng.percent(15) {
        record[1..3].copy_from_slice(&script.rng.pick(&[[0, 0], [0x80, 0]]));
    } else {
        near::spoil(script.rng, Carrier::Inform, &mut record);
    }
    script.put(&record);
}

fn anything(script: &mut Script) {
    let reference = reference(script, [70, 15, 15]);
    let component = near::anything(script, Carrier::Inform);
    script.put(&records::inform(reference, &component));
}

/// The reference of an Active call, of a call in another state, or of none; by weight.
fn reference(script: &mut Script, weights: [u32; 3]) -> Reference {
    match script.rng.weighted(&weights) {
        0 => active(script),
        1 => {
            let other = script.pick_call_with(|call| call.state != CallState::Active);
            other.map_or_else(|| absent(script), |call| call.reference)
        }
        _ => absent(script),
    }
}

/// One that is not Idle is likelier; where no call is Active, one becomes so.
fn active(script: &mut Script) -> Reference {
    let holding = script.rng.percent(40);
    let fits = |aux| !holding || aux != Aux::Idle;
    let picked = script.pick_call_with(|call| call.state == CallState::Active && fits(call.aux));
    let picked = picked.or_else(|| script.pick_call_with(|call| call.state == CallState::Active));
    picked.map_or_else(|| fresh_call(script, false), |call| call.reference)
}

/// A reference without a call; at times the number of a leg on the board.
fn absent(script: &mut Script) -> Reference {
    let leg = script.pick_served().and_then(|leg| u16::try_from(leg).ok()).map(Reference);
    let leg = leg.filter(|&leg| leg.valid() && script.call(leg).is_none());
    match leg {
        Some(leg) if script.rng.percent(20) => leg,
        _ => script.absent_reference(),
    }
}
