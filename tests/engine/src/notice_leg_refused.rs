//! What occurs where a Leg facility is refused.

use crate::board::{Aux, CallState, Row};
use crate::carrier::Carrier;
use crate::notice::{row_of_leg, Moment, Past};
use crate::notice_carrier;
use crate::notice_component::elements;
use crate::notice_miss::{reason, Reason};
use crate::notice_miss_subaddress::argument;
use crate::notice_pass::alerts;
use crate::seen_carrier::CarrierSeen;
use crate::seen_leg::LegSeen;
use crate::tally::Tally;

/// 10: the leg is not on the board.
pub fn absent(leg: u32, past: &Past, tally: &mut Tally) {
    let (released, went) = (past.released.contains(&leg), past.went.contains(&leg));
    tally.add_if(released, LegSeen::NoLegReleased);
    tally.add_if(went, LegSeen::NoLegPartner);
    tally.add_if(!released && !went, LegSeen::NoLegNew);
    tally.add_if(leg == 0, LegSeen::NoLeg0);
}

/// 11: the leg is still with the served user.
pub fn served(row: &Row, tally: &mut Tally) {
    let Some(call) = row.call() else { return };
    tally.add(match call.state {
        CallState::Proceeding => LegSeen::Served3,
        CallState::Delivered => LegSeen::Served4,
        CallState::Received => LegSeen::Served7,
        CallState::Active => LegSeen::Served10,
    });
    tally.add_if(call.aux == Aux::Held, LegSeen::ServedHeld);
}

/// 12: the component is no SubaddressTransfer invoke.
pub fn refused(moment: &Moment, row: &Row, partner: u32, component: &[u8], tally: &mut Tally) {
    let other = row_of_leg(moment.before, partner);
    tally.add(match (alerts(Some(row)), alerts(other)) {
        (true, _) => LegSeen::RefusedAlerting,
        (_, true) => LegSeen::RefusedWaiting,
        _ => LegSeen::RefusedNeither,
    });
    match reason(Carrier::LegFacility, component, moment.left_behind(component)) {
        Reason::Argument(element) => match argument(&element) {
            Some(seen) => tally.add(seen),
            None => tally.add((Carrier::LegFacility, CarrierSeen::Otherwise)),
        },
        Reason::Seen(seen) => {
            if notice_carrier::refused(Carrier::LegFacility, seen, component, tally) {
                behind(component, tally);
            }
        }
    }
}

/// Behind which form of argument something lies.
fn behind(component: &[u8], tally: &mut Tally) {
    let list = elements(&component[2..]);
    let argument = &list[2];
    let inner = if argument.tag == 0x30 { elements(argument.contents).len() } else { 0 };
    tally.add([LegSeen::BehindPlain, LegSeen::BehindInner, LegSeen::BehindFlagged][inner]);
}
