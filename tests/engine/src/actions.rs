//! The single steps from which logs are made.

use crate::board::{Aux, CallState, LinkId, Reference, INCOMING, OUTGOING};
use crate::combine::combine;
use crate::component::Operation;
use crate::informs::inform;
use crate::legs::leg_facility;
use crate::odd;
use crate::opens;
use crate::records;
use crate::script::Script;

/// How often each step is taken, as weights.
pub struct Style {
    pub weights: [u32; 16],
    pub opens_first: usize,
    pub length: (usize, usize),
}

/// The steps, in the order of the weights.
const STEPS: [fn(&mut Script); 16] = [
    open,
    progress,
    hold,
    release,
    answer,
    link,
    execute,
    explicit,
    pair,
    odd_component,
    bad_field,
    stray,
    clutter,
    leg_facility,
    inform,
    combine,
];

pub fn step(script: &mut Script, style: &Style) {
    let place = script.rng.weighted(&style.weights);
    STEPS[place](script);
}

fn open(script: &mut Script) {
    let direction = script.rng.percent(40) as u8;
    script.open(direction);
}

/// Mostly a permitted step; a call that is Active can only be refused.
fn progress(script: &mut Script) {
    let fitting = script.pick_call_with(|call| call.state != CallState::Active);
    let Some(call) = fitting.or_else(|| script.pick_call()) else { return open(script) };
    let delivered = call.state == CallState::Proceeding && script.rng.percent(60);
    let state = if delivered || script.rng.percent(5) { 4 } else { 10 };
    script.put(&records::progress(call.reference, state));
}

fn hold(script: &mut Script) {
    let fitting = script.pick_call_with(|call| call.may_hold());
    let Some(call) = fitting else { return progress(script) };
    let aux = match call.aux {
        Aux::Idle => 1,
        Aux::HoldRequest => script.rng.pick(&[2, 2, 2, 0]),
        Aux::Held => 3,
        Aux::RetrieveRequest => script.rng.pick(&[0, 0, 0, 2]),
    };
    script.put(&records::hold(call.reference, aux));
}

fn release(script: &mut Script) {
    let joined = if script.rng.percent(30) { script.pick_joined() } else { None };
    let Some(leg) = joined.or_else(|| script.pick_leg()) else { return open(script) };
    script.put(&records::release(leg));
}

fn answer(script: &mut Script) {
    let any = script.rng.percent(10);
    let leg = if any { script.pick_leg() } else { script.pick_alerting() };
    let Some(leg) = leg else { return hold(script) };
    script.put(&records::answer(leg));
}

fn link(script: &mut Script) {
    let fresh = if script.rng.percent(70) { script.pick_call_with(|call| call.link.is_none()) } else { None };
    let Some(call) = fresh.or_else(|| script.pick_call()) else { return open(script) };
    script.link(call.reference);
}

fn execute(script: &mut Script) {
    let held =
        if script.rng.percent(60) { script.pick_call_with(|call| call.aux == Aux::Held) } else { None };
    let Some(call) = held.or_else(|| script.pick_call()) else { return open(script) };
    script.ask(call.reference, Operation::Execute);
}

/// The LinkId of another call, the own one, one that is gone, or any value.
fn explicit(script: &mut Script) {
    let Some(call) = script.pick_call() else { return open(script) };
    let live = script.pick_call_with(|call| call.link.is_some()).and_then(|call| call.link);
    let gone =
        if script.old_links.is_empty() { None } else { Some(script.rng.below(script.old_links.len())) };
    let link = match script.rng.below(10) {
        0 => call.link,
        1 => gone.map(|place| script.old_links[place]),
        2 => Some(LinkId(script.rng.draw() as i16)),
        _ => live,
    };
    script.ask(call.reference, Operation::Explicit(link.unwrap_or(LinkId(-3))));
}

/// Brings two calls into a combination that may be transferred and asks for it.
pub fn pair(script: &mut Script) {
    let alerts = script.rng.percent(50);
    let (first, second) = (fresh_call(script, false), fresh_call(script, alerts));
    let (held, idle) = if script.rng.percent(50) { (first, second) } else { (second, first) };
    script.to_aux(held, Aux::Held);
    if script.rng.percent(5) {
        script.to_aux(idle, Aux::HoldRequest);
    }
    let (named, other) = if script.rng.percent(60) { (held, idle) } else { (idle, held) };
    if script.rng.percent(30) {
        script.link(named);
    }
    if script.rng.percent(50) {
        script.ask(named, Operation::Execute);
    } else if let Some(link) = script.link(other) {
        script.ask(named, Operation::Explicit(link));
    }
}

/// A new call brought to Delivered or Active.
pub fn fresh_call(script: &mut Script, alerts: bool) -> Reference {
    let direction = if alerts || script.rng.percent(50) { OUTGOING } else { INCOMING };
    let reference = script.open(direction);
    if script.call(reference).is_none() && script.rng.percent(90) {
        return reference;
    }
    if alerts {
        script.to_state(reference, CallState::Delivered);
    } else {
        if direction == OUTGOING && script.rng.percent(40) {
            script.to_state(reference, CallState::Delivered);
        }
        script.to_state(reference, CallState::Active);
    }
    reference
}

fn odd_component(script: &mut Script) {
    let Some(call) = script.pick_call() else { return open(script) };
    let component = odd::component(script);
    script.facility(call.reference, &component);
}

/// A record with one field outside its range; the reference may be in use or not.
fn bad_field(script: &mut Script) {
    let reference = script.pick_call().map_or(Reference(5), |call| call.reference);
    let mut record = match script.rng.below(5) {
        0 | 1 => opens::bad(script),
        2 => records::progress(reference, script.rng.octet()),
        3 => records::hold(reference, script.rng.within(4, 255) as u8),
        _ => bad_facility(script, reference),
    };
    if script.rng.percent(20) {
        record[1..3].copy_from_slice(&script.rng.pick(&[[0, 0], [0x80, 0]]));
    }
    script.put(&record);
}

fn bad_facility(script: &mut Script, reference: Reference) -> Vec<u8> {
    let mut record = records::facility(reference, &script.invoke(Operation::Execute));
    match script.rng.below(3) {
        0 => record[3] = 0,
        1 => record[3] = script.rng.within(33, 255) as u8,
        _ => record[script.rng.within(20, 35)] = script.rng.within(1, 255) as u8,
    }
    record
}

/// Events that name what is not there, or is there already, or is not permitted now.
fn stray(script: &mut Script) {
    let absent = script.absent_reference();
    let record = match script.rng.below(9) {
        0 | 1 => opens::taken(script),
        2 => records::progress(absent, script.rng.pick(&[4, 10])),
        3 => records::hold(absent, script.rng.below(4) as u8),
        4 => records::facility(absent, &odd::component(script)),
        5 => records::release(script.fresh_leg()),
        6 => records::answer(script.fresh_leg()),
        7 => records::answer(script.pick_leg().unwrap_or(3)),
        _ => not_permitted(script),
    };
    script.put(&record);
}

fn not_permitted(script: &mut Script) -> Vec<u8> {
    let reference = script.pick_call().map_or(Reference(9), |call| call.reference);
    if script.rng.percent(40) {
        records::progress(reference, script.rng.pick(&[4, 10]))
    } else {
        records::hold(reference, script.rng.below(4) as u8)
    }
}

/// Several calls in fitting states at once, so that EctExecute has more than one partner.
fn clutter(script: &mut Script) {
    let held = fresh_call(script, false);
    script.to_aux(held, Aux::Held);
    let mut last = held;
    for _ in 0..script.rng.within(1, 2) {
        let alerts = script.rng.percent(40);
        last = fresh_call(script, alerts);
    }
    let named = if script.rng.percent(70) { held } else { last };
    script.ask(named, Operation::Execute);
}
