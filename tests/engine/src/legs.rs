//! What far parties send: joined ones their subaddresses, and others what is refused.

use crate::actions::pair;
use crate::board::Standing;
use crate::carrier::Carrier;
use crate::near;
use crate::records;
use crate::script::Script;

/// Rarer where the access is not subscribed: nobody is joined there, and most of it is 11.
pub fn leg_facility(script: &mut Script) {
    if script.board.subscribed == 0 && script.rng.percent(75) {
        return;
    }
    match script.rng.weighted(&[42, 36, 12, 6, 4]) {
        0 => subaddress(script),
        1 => missed(script),
        2 => bad_record(script),
        3 => anything(script),
        _ => near::on_a_call(script, Carrier::LegFacility),
    }
}

/// A subaddress, at times answered by the partner's.
fn subaddress(script: &mut Script) {
    let leg = leg(script, [76, 12, 12]);
    send(script, leg);
    if let (Some(partner), true) = (partner(script, leg), script.rng.percent(30)) {
        send(script, partner);
    }
}

fn send(script: &mut Script, leg: u32) {
    let component = near::right(script, Carrier::LegFacility);
    script.put(&records::leg_facility(leg, &component));
}

fn missed(script: &mut Script) {
    let leg = leg(script, [92, 4, 4]);
    let component = near::miss(script, Carrier::LegFacility);
    script.put(&records::leg_facility(leg, &component));
}

fn bad_record(script: &mut Script) {
    let leg = leg(script, [70, 15, 15]);
    let component = near::mostly_right(script, Carrier::LegFacility);
    let mut record = records::leg_facility(leg, &component);
    near::spoil(script.rng, Carrier::LegFacility, &mut record);
    script.put(&record);
}

fn anything(script: &mut Script) {
    let leg = leg(script, [70, 15, 15]);
    let component = near::anything(script, Carrier::LegFacility);
    script.put(&records::leg_facility(leg, &component));
}

/// A leg that is joined, has a call with the served user, or is not on the board; by weight.
fn leg(script: &mut Script, weights: [u32; 3]) -> u32 {
    let leg = match script.rng.weighted(&weights) {
        0 => joined(script),
        1 => script.pick_served(),
        _ => Some(absent(script)),
    };
    leg.or_else(|| script.pick_leg()).unwrap_or_else(|| absent(script))
}

/// Alerting ones are likelier; where none is joined, two are, if the access is subscribed.
fn joined(script: &mut Script) -> Option<u32> {
    for _ in 0..2 {
        if script.board.subscribed != 0 && script.pick_joined().is_none() {
            pair(script);
        }
    }
    let alerting = script.pick_alerting().filter(|_| script.rng.percent(50));
    match alerting {
        Some(leg) if script.rng.percent(50) => partner(script, leg),
        Some(leg) => Some(leg),
        None => script.pick_joined(),
    }
}

fn partner(script: &Script, leg: u32) -> Option<u32> {
    script.board.rows.iter().find_map(|row| match row.standing {
        Standing::Joined { partner, .. } if row.leg == leg => Some(partner),
        _ => None,
    })
}

/// A leg that is not on the board; often one that was.
fn absent(script: &mut Script) -> u32 {
    let old = script.pick_old_leg().filter(|_| script.rng.percent(60));
    old.unwrap_or_else(|| script.fresh_leg())
}
