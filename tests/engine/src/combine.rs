//! Two calls in whatever situations, asked to be transferred by the LinkId of one of them.

use crate::actions::fresh_call;
use crate::board::{Aux, CallState, LinkId, Reference};
use crate::component::Operation;
use crate::records;
use crate::script::Script;

/// Makes both calls or takes one that is there; at times asks by the named call's own LinkId, or
/// by EctExecute. The party that alerts may answer next, or one of the two be released.
pub fn combine(script: &mut Script) {
    let second_there = script.rng.percent(40).then(|| second_call(script));
    let first = first_call(script);
    let second = second_there.unwrap_or_else(|| second_call(script));
    let (named, other) = if script.rng.percent(50) { (first, second) } else { (second, first) };
    for reference in [named, other] {
        let aux = some_aux(script);
        to(script, reference, aux);
    }
    match script.rng.weighted(&[74, 12, 14]) {
        0 => by_link(script, named, other),
        1 => by_link(script, named, named),
        _ => drop(script.ask(named, Operation::Execute)),
    }
    follow(script);
}

/// Active; at times Delivered, so that both may be.
fn first_call(script: &mut Script) -> Reference {
    if script.rng.percent(9) {
        return fresh_call(script, true);
    }
    let there = script.pick_call_with(|call| call.state == CallState::Active);
    match there {
        Some(call) if script.rng.percent(30) => call.reference,
        _ => fresh_call(script, false),
    }
}

/// Active, Delivered, or as it was opened.
fn second_call(script: &mut Script) -> Reference {
    match script.rng.weighted(&[42, 47, 11]) {
        0 => fresh_call(script, false),
        1 => fresh_call(script, true),
        _ => {
            let direction = script.rng.below(2) as u8;
            script.open(direction)
        }
    }
}

/// Idle and Held are likelier.
pub fn some_aux(script: &mut Script) -> Aux {
    const AUX: [Aux; 4] = [Aux::Idle, Aux::Held, Aux::HoldRequest, Aux::RetrieveRequest];
    AUX[script.rng.weighted(&[46, 30, 12, 12])]
}

pub fn to(script: &mut Script, reference: Reference, aux: Aux) {
    if aux != Aux::RetrieveRequest {
        return script.to_aux(reference, aux);
    }
    script.to_aux(reference, Aux::Held);
    if script.call(reference).is_some_and(|call| call.aux == Aux::Held) {
        script.put(&records::hold(reference, aux as u8));
    }
}

/// ExplicitEctExecute on the one call with the LinkId of the other, which it may have already;
/// any LinkId where it gets none. At times a further element stands behind.
fn by_link(script: &mut Script, named: Reference, other: Reference) {
    let had = script.call(other).and_then(|call| call.link);
    let link = had.or_else(|| script.link(other));
    let any = LinkId(script.rng.below(40) as i16 - 20);
    let operation = Operation::Explicit(link.unwrap_or(any));
    if script.rng.percent(6) {
        let behind: &[u8] = script.rng.pick(&[&[5, 0], &[0x30, 2, 5, 0], &[2, 2, 0, 5]]);
        let component = records::invoke(&[&script.invoke(operation)[2..], behind]);
        script.facility(named, &component);
    } else {
        script.ask(named, operation);
    }
}

/// What may come next: an Answer, at times twice, or a Release.
fn follow(script: &mut Script) {
    let Some(leg) = script.pick_alerting() else { return };
    match script.rng.below(10) {
        0..5 => drop(script.put(&records::answer(leg))),
        5 => {
            script.put(&records::answer(leg));
            script.put(&records::answer(leg));
        }
        6 => drop(script.put(&records::release(leg))),
        _ => {}
    }
}
