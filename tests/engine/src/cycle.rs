//! The long log: LinkIds go once round all 65,536 values, some of them staying live.

use crate::actions::pair;
use crate::board::{Aux, CallState, LinkId, Reference, OUTGOING};
use crate::component::Operation;
use crate::opens::Opens;
use crate::records;
use crate::rng::Rng;
use crate::script::Script;

/// LinkIds whose calls stay on the board until the candidate comes round to them again.
const KEPT: [i16; 7] = [0, 1, 3, 7, 8, 11, 32767];
/// LinkIds that a transfer is made with: where the count of octets or the sign changes.
const EDGES: [i16; 4] = [127, 128, -32768, -129];
/// More than all values, so that the candidate comes round.
const GIVEN: usize = 65_536 + 400;

/// With options under which all that is asked for is served: a party that alerts is transferred too.
pub fn log(rng: &mut Rng, (subscribed, alerting): (u8, u8), opens: Opens) -> Vec<u8> {
    let mut script = Script { opens, ..Script::new(rng, subscribed, alerting) };
    let mut given = 0;
    while given < GIVEN {
        given += round(&mut script);
    }
    script.log
}

/// Some calls get LinkIds, at times two of them are transferred, the rest go.
fn round(script: &mut Script) -> usize {
    let count = script.rng.within(3, 4);
    let mut calls: Vec<(Reference, LinkId)> = Vec::new();
    for _ in 0..count {
        let reference = script.open(OUTGOING);
        if let Some(link) = script.link(reference) {
            calls.push((reference, link));
        }
    }
    calls.retain(|(_, link)| !KEPT.contains(&link.0));
    let edge = calls.iter().rposition(|(_, link)| EDGES.contains(&link.0));
    let near = calls.iter().any(|(_, link)| near_edge(*link));
    if calls.len() >= 2 && (near || script.rng.percent(2)) {
        let other = edge.unwrap_or(1);
        transfer(script, calls[(other + 1) % calls.len()].0, calls[other]);
    }
    if script.rng.percent(1) {
        pair(script);
    }
    for (reference, _) in calls {
        release(script, reference);
    }
    sweep(script);
    count
}

/// Transfers cost many events: always where negative values are short or the range ends.
fn near_edge(link: LinkId) -> bool {
    matches!(link.0, -300..=300 | 32_500.. | ..=-32_500)
}

fn transfer(script: &mut Script, named: Reference, (other, link): (Reference, LinkId)) {
    let alerts = script.rng.percent(30);
    script.to_state(named, CallState::Active);
    script.to_state(other, if alerts { CallState::Delivered } else { CallState::Active });
    let held = if script.rng.percent(70) { named } else { other };
    script.to_aux(held, Aux::Held);
    script.ask(named, Operation::Explicit(link));
}

/// Releases a call, if it is there; gives what that returned.
fn release(script: &mut Script, reference: Reference) -> u8 {
    let row = script.board.rows.iter().find(|row| row.call().is_some_and(|call| call.reference == reference));
    row.map(|row| row.leg).map_or(0, |leg| script.put(&records::release(leg)))
}

/// Ends joined pairs and calls left over, so that the board stays small.
fn sweep(script: &mut Script) {
    while let Some(leg) = script.pick_joined() {
        if script.put(&records::release(leg)) != 0 {
            // Only on a board that a fault of the engine has left.
            return;
        }
    }
    let left = |script: &mut Script| {
        script.pick_call_with(|call| call.link.is_none_or(|link| !KEPT.contains(&link.0)))
    };
    while let Some(call) = left(script) {
        if release(script, call.reference) != 0 {
            return;
        }
    }
}
