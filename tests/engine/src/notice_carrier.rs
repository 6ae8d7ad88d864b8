//! What occurs both of Leg facilities and of Informs.

use crate::board::{Board, CallState, Standing};
use crate::carrier::Carrier;
use crate::event::Event;
use crate::notice::{call_of, row_of_leg, Moment, Past};
use crate::notice_component::elements;
use crate::notice_invoke::form;
use crate::notice_refused::reference;
use crate::rules::RuleSet;
use crate::seen_carrier::CarrierSeen;
use crate::tally::Tally;
use crate::{notice_inform, notice_leg};

/// Tallies one of full length.
pub fn judged(moment: &Moment, carrier: Carrier, past: &mut Past, tally: &mut Tally) {
    match Event::read(moment.record) {
        Ok(Event::LegFacility { leg, component }) => {
            common(moment, carrier, component, tally);
            notice_leg::judged(moment, leg, component, past, tally);
        }
        Ok(Event::Inform { reference, component }) => {
            common(moment, carrier, component, tally);
            notice_inform::judged(moment, reference, component, past, tally);
        }
        _ => bad_field(moment, carrier, tally),
    }
}

/// One that the end of the log has cut.
pub fn cut(record: &[u8], carrier: Carrier, tally: &mut Tally) {
    let seen = match record.len() {
        1 => CarrierSeen::CutAfterKind,
        length if length + 1 == carrier.length() => CarrierSeen::CutOneShort,
        _ => CarrierSeen::CutElsewhere,
    };
    tally.add((carrier, seen));
}

/// What would follow the fields: 9, 10, 11, or nothing before the component is looked at.
fn would_follow(board: &Board, carrier: Carrier, record: &[u8]) -> u8 {
    let leg = u32::from_be_bytes([record[1], record[2], record[3], record[4]]);
    match carrier {
        Carrier::LegFacility => row_of_leg(board, leg).map_or(10, |row| match row.standing {
            Standing::Joined { .. } => 0,
            _ => 11,
        }),
        Carrier::Inform => call_of(board, reference(record)).map_or(9, |call| match call.state {
            CallState::Active => 0,
            _ => 11,
        }),
    }
}

/// 5: the reference, the count, or else a fill octet.
fn bad_field(moment: &Moment, carrier: Carrier, tally: &mut Tally) {
    let record = moment.record;
    if carrier == Carrier::Inform && !reference(record).valid() {
        return notice_inform::bad_reference(record, tally);
    }
    let count = record[carrier.count_at()];
    let seen = match (would_follow(moment.before, carrier, record), count) {
        (9 | 10, _) => CarrierSeen::FieldBeforeAbsent,
        (11, _) => CarrierSeen::FieldBefore11,
        (_, 0) => CarrierSeen::Count0,
        (_, 65) => CarrierSeen::Count65,
        (_, 255) => CarrierSeen::Count255,
        (_, 66..) => CarrierSeen::CountHigh,
        _ => return bad_fill(record, carrier, count as usize, tally),
    };
    tally.add((carrier, seen));
}

/// The octets behind the component, where the leg or the call is right.
fn bad_fill(record: &[u8], carrier: Carrier, count: usize, tally: &mut Tally) {
    let octets = &record[carrier.component_at()..];
    let places: Vec<usize> = (count..octets.len()).filter(|&place| octets[place] != 0).collect();
    if !carrier.is_right(&octets[..count]) {
        tally.add((carrier, CarrierSeen::FieldBefore12));
        let longer = places == [count] && carrier.is_right(&octets[..=count]);
        return tally.add_if(longer, (carrier, CarrierSeen::CountSmall));
    }
    let seen = match places.as_slice() {
        [place] if *place == count => CarrierSeen::FillFirst,
        [place] if *place == octets.len() - 1 => CarrierSeen::FillLast,
        _ => CarrierSeen::FillBetween,
    };
    tally.add((carrier, seen));
}

/// What is the same for both events, by what was returned.
fn common(moment: &Moment, carrier: Carrier, component: &[u8], tally: &mut Tally) {
    use CarrierSeen::{AbsentBefore12, AbsentRight, AbsentUnsubscribed};
    use CarrierSeen::{BarredBefore12, BarredRight, BarredUnsubscribed};
    let [right, before_12, unsubscribed] = match moment.returned {
        0 => return accepted(moment, carrier, component, tally),
        9 | 10 => [AbsentRight, AbsentBefore12, AbsentUnsubscribed],
        11 => [BarredRight, BarredBefore12, BarredUnsubscribed],
        _ => {
            let american = moment.before.rules() == RuleSet::American;
            tally.add_if(american, (carrier, CarrierSeen::RefusedAmerican));
            tally.add_if(component.len() == 1, (carrier, CarrierSeen::OneOctet));
            return tally.add_if(component.len() == 64, (carrier, CarrierSeen::Octets64));
        }
    };
    let seen = if carrier.is_right(component) { right } else { before_12 };
    tally.add((carrier, seen));
    tally.add_if(moment.before.subscribed == 0, (carrier, unsubscribed));
}

/// Who gets something, and the forms in which the component was written.
fn accepted(moment: &Moment, carrier: Carrier, component: &[u8], tally: &mut Tally) {
    use CarrierSeen::{Id0080, IdFF7F, IdNegativeOne, IdNegativeTwo, IdPositiveOne, IdPositiveTwo, LastZero};
    use CarrierSeen::{Longest, Octets32, Octets33, Option0, Option1, Option2, Option3, Shortest};
    tally.add((carrier, [Option0, Option1, Option2, Option3][moment.before.alerting as usize]));
    tally.add_if(moment.written[1..5] == [0; 4], (carrier, CarrierSeen::ToLeg0));
    tally.add_if(moment.written[1..5] == [0xFF; 4], (carrier, CarrierSeen::ToHighestLeg));
    if let Some(value) = elements(&component[2..]).first().and_then(|identifier| identifier.integer()) {
        let forms = [IdPositiveOne, IdPositiveTwo, IdNegativeOne, IdNegativeTwo];
        tally.add((carrier, forms[form(value)]));
        tally.add_if(value == 128, (carrier, Id0080));
        tally.add_if(value == -129, (carrier, IdFF7F));
    }
    let [shortest, longest] = carrier.octets();
    tally.add_if(component.ends_with(&[0]), (carrier, LastZero));
    tally.add_if(component.len() == shortest, (carrier, Shortest));
    tally.add_if(component.len() == 32, (carrier, Octets32));
    tally.add_if(component.len() == 33, (carrier, Octets33));
    tally.add_if(component.len() == longest, (carrier, Longest));
}

/// Tallies a reason for 12; whether something lies behind the argument is the answer.
pub fn refused(carrier: Carrier, seen: CarrierSeen, component: &[u8], tally: &mut Tally) -> bool {
    use CarrierSeen::{Behind0000, Behind0500, BehindElse, BehindFirst, BehindSecond, BehindSeveral};
    tally.add((carrier, seen));
    let behind =
        [Behind0000, Behind0500, BehindElse, BehindFirst, BehindSecond, BehindSeveral].contains(&seen);
    tally.add_if(behind && component.len() == 64, (carrier, CarrierSeen::BehindTo64));
    behind
}

/// A right invoke in a Facility is not served; the answer is whether it is one.
pub fn in_a_facility(moment: &Moment, carrier: Carrier, component: &[u8], tally: &mut Tally) -> bool {
    let right = carrier.is_right(component);
    let unsubscribed = moment.before.subscribed == 0;
    tally.add_if(right, (carrier, CarrierSeen::InFacility));
    tally.add_if(right && unsubscribed, (carrier, CarrierSeen::InFacilityUnsubscribed));
    right
}
