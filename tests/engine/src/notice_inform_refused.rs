//! What occurs where an Inform is refused.

use crate::board::{Aux, Board, Call, CallState, Reference};
use crate::carrier::Carrier;
use crate::inform::Indication;
use crate::notice::{call_of, row_of_leg, Moment, Past};
use crate::notice_carrier;
use crate::notice_component::elements;
use crate::notice_miss::{reason, Reason};
use crate::notice_miss_inform::{argument, at_an_end, Wrong};
use crate::seen_carrier::CarrierSeen;
use crate::seen_inform::{InformSeen, NumberSeen};
use crate::tally::Tally;

/// 5: a reference that none can be, all else right.
pub fn bad_reference(record: &[u8], tally: &mut Tally) {
    let (front, octets) = record.split_at(Carrier::Inform.component_at());
    let count = (front[Carrier::Inform.count_at()] as usize).min(octets.len());
    let (component, fill) = octets.split_at(count);
    let right = Carrier::Inform.is_right(component) && fill.iter().all(|&octet| octet == 0);
    let seen = if front[1] == 0 { InformSeen::Reference0 } else { InformSeen::Reference8000 };
    tally.add_if(right, seen);
}

fn is_active(call: Option<&Call>) -> bool {
    call.is_some_and(|call| call.state == CallState::Active)
}

/// 9: no call has the reference.
pub fn absent(board: &Board, reference: Reference, past: &Past, tally: &mut Tally) {
    let (ended, went) = (past.ended.contains(&reference), past.references.contains(&reference));
    tally.add_if(ended, InformSeen::NoCallReleased);
    tally.add_if(went, InformSeen::NoCallTransferred);
    tally.add_if(!ended && !went, InformSeen::NoCallNew);
    let twin = call_of(board, Reference(reference.0 ^ 0x8000));
    tally.add_if(is_active(twin), InformSeen::NoCallTwin);
    let leg = row_of_leg(board, reference.0 as u32).and_then(|row| row.call());
    tally.add_if(is_active(leg), InformSeen::NoCallLeg);
}

/// 11: the call is not Active.
pub fn not_active(call: &Call, tally: &mut Tally) {
    tally.add(match (call.state, call.aux) {
        (CallState::Proceeding, _) => InformSeen::State3,
        (CallState::Received, _) => InformSeen::State7,
        (_, Aux::Idle) => InformSeen::State4,
        (_, Aux::HoldRequest) => InformSeen::State4HoldRequest,
        (_, Aux::Held) => InformSeen::State4Held,
        (_, Aux::RetrieveRequest) => InformSeen::State4RetrieveRequest,
    });
}

/// 12: the component is no EctInform invoke.
pub fn refused(moment: &Moment, call: &Call, component: &[u8], tally: &mut Tally) {
    tally.add(match call.aux {
        Aux::Idle => InformSeen::RefusedIdle,
        Aux::HoldRequest => InformSeen::RefusedHoldRequest,
        Aux::Held => InformSeen::RefusedHeld,
        Aux::RetrieveRequest => InformSeen::RefusedRetrieveRequest,
    });
    tally.add_if(moment.before.subscribed == 0, InformSeen::RefusedUnsubscribed);
    match reason(Carrier::Inform, component, moment.left_behind(component)) {
        Reason::Argument(element) => match argument(&element) {
            Some(Wrong::Argument(seen)) => tally.add(seen),
            Some(Wrong::Number(indication, seen)) => wrong_number(indication, seen, element.whole, tally),
            None => tally.add((Carrier::Inform, CarrierSeen::Otherwise)),
        },
        Reason::Seen(seen) => {
            if notice_carrier::refused(Carrier::Inform, seen, component, tally) {
                behind(component, tally);
            }
        }
    }
}

fn wrong_number(indication: Indication, seen: NumberSeen, argument: &[u8], tally: &mut Tally) {
    use NumberSeen::{Letter, Octet2F, Octet3A, OctetElse};
    tally.add((indication, seen));
    if [Letter, Octet2F, Octet3A, OctetElse].contains(&seen) {
        // Four tags with their lengths and the indication stand in front of the digits.
        if let Some(seen) = at_an_end(&argument[9..]) {
            tally.add((indication, seen));
        }
    }
}

/// Behind which form of argument something lies.
fn behind(component: &[u8], tally: &mut Tally) {
    let list = elements(&component[2..]);
    tally.add(match elements(list[2].contents).get(1).map(|number| number.tag) {
        None => InformSeen::BehindNone,
        Some(0x81) => InformSeen::Behind81,
        Some(_) => InformSeen::BehindA0,
    });
}
