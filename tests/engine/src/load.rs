//! Long logs that keep a board at a given load, for timing. Their Opens are of kind 1.

use crate::actions::{step, Style};
use crate::board::{Aux, Call, CallState};
use crate::component::Operation;
use crate::opens::Opens;
use crate::records;
use crate::rng::Rng;
use crate::script::Script;

/// Like an attendant's day, without wrong events; Opens, Releases and most transfers are
/// added by the load.
const BUSY: Style =
    Style { weights: [0, 16, 24, 0, 6, 10, 4, 4, 0, 0, 0, 0, 0, 0, 0, 0], opens_first: 0, length: (0, 0) };

/// A log of that many events with about that many legs; also gives the mean of legs.
pub fn log(rng: &mut Rng, legs: usize, events: usize) -> (Vec<u8>, f64) {
    let mut script = Script { pads: false, opens: Opens::Old, ..Script::new(rng, 1, 1) };
    let mut sum = 0;
    let mut steps = 0;
    while script.events() < events {
        let now = script.legs();
        sum += now;
        steps += 1;
        if now < legs {
            let direction = script.rng.percent(40) as u8;
            script.open(direction);
        } else {
            busy_step(&mut script);
        }
        // These lists would grow with the log and are not used here.
        script.old_references.clear();
        script.old_links.clear();
        script.old_legs.clear();
    }
    (script.log, sum as f64 / steps as f64)
}

fn busy_step(script: &mut Script) {
    match script.rng.below(100) {
        0..12 => {
            if let Some(leg) = script.pick_leg() {
                script.put(&records::release(leg));
            }
        }
        12..24 => transfer(script),
        _ => step(script, &BUSY),
    }
}

/// ExplicitEctExecute on a held call with the LinkId of a fitting idle one.
fn transfer(script: &mut Script) {
    let fits = |call: &Call, aux| call.state == CallState::Active && call.aux == aux;
    let held = script.pick_call_with(|call| fits(call, Aux::Held));
    let linked =
        script.pick_call_with(|call| call.may_hold() && call.aux == Aux::Idle && call.link.is_some());
    match (held, linked) {
        (Some(held), Some(idle)) => {
            let link = idle.link.unwrap_or(script.board.candidate);
            script.ask(held.reference, Operation::Explicit(link));
        }
        (Some(_), None) => {
            let idle = script.pick_call_with(|call| call.may_hold() && call.aux == Aux::Idle);
            if let Some(idle) = idle {
                script.link(idle.reference);
            }
        }
        _ => step(script, &BUSY),
    }
}
