//! What occurs of events that come to the same with the option "subscribed" 1 and 2, and of EctExecutes
//! by European rules, which do not.

use crate::alike::{exchanged, execute, Access};
use crate::board::{Board, Call, CallState, LinkId, Row, Standing};
use crate::component::{read, Operation, Reading, INVOKE};
use crate::event::Event;
use crate::notice::{call_of, row_of_leg, Moment};
use crate::notice_component::{further, others, row_of};
use crate::seen_explicit::{AlikeSeen, ExecuteSeen};
use crate::serve::{pairs, verdict};
use crate::tally::Tally;

pub fn notice(moment: &Moment, tally: &mut Tally) {
    let Some(access) = Access::of(moment.before) else { return };
    if execute(moment).is_some() {
        return executed(moment, access, tally);
    }
    tally.add_each(alike(moment).map(|seen| (access, seen)));
    tally.add_if(moment.returned == 9 && asks_execute(moment), (access, AlikeSeen::ExecuteAbsent));
}

fn asks_execute(moment: &Moment) -> bool {
    let Ok(Event::Facility { component, .. }) = Event::read(moment.record) else { return false };
    matches!(read(component), Reading::Invoke { operation: Operation::Execute, .. })
}

fn alike(moment: &Moment) -> Option<AlikeSeen> {
    use AlikeSeen::*;
    const REFUSED: [AlikeSeen; 10] = [
        Refused3, Refused4, Refused5, Refused6, Refused7, Refused8, Refused9, Refused10, Refused11, Refused12,
    ];
    if moment.returned != 0 {
        return REFUSED.get(moment.returned.checked_sub(3)? as usize).copied();
    }
    Some(match Event::read(moment.record).ok()? {
        Event::Open { .. } => Opened,
        Event::Progress { .. } => Progressed,
        Event::Hold { .. } => Held,
        Event::Release { leg } if row_of_leg(moment.before, leg)?.call().is_some() => ReleasedCall,
        Event::Release { .. } => ReleasedPair,
        Event::Answer { .. } => Answered,
        Event::LegFacility { .. } => PassedOn,
        Event::Inform { .. } => Told,
        Event::Facility { reference, component } => {
            let named = call_of(moment.before, reference)?;
            match read(component) {
                Reading::Nothing => Nothing,
                Reading::Reject { sort: INVOKE, problem: 1, .. } => Unrecognised,
                Reading::Reject { sort: INVOKE, .. } => NoLink,
                Reading::Reject { .. } => General,
                // American: tallied with those that are rejected whatever the option.
                Reading::Invoke { operation: Operation::Execute, .. } => return None,
                Reading::Invoke { operation: Operation::LinkRequest, .. } => linked(moment, named),
                Reading::Invoke { operation: Operation::Explicit(link), .. } => explicit(moment, named, link),
            }
        }
    })
}

fn linked(moment: &Moment, named: &Call) -> AlikeSeen {
    match (named.link, moment.written[4]) {
        (_, 0xA3) => AlikeSeen::LinkNone,
        (Some(_), _) => AlikeSeen::LinkAgain,
        _ => AlikeSeen::LinkNew,
    }
}

fn explicit(moment: &Moment, named: &Call, link: LinkId) -> AlikeSeen {
    let board = moment.before;
    let Some(other) = row_of(board, |call| call.link == Some(link)).and_then(Row::call) else {
        return AlikeSeen::NotAssigned;
    };
    let transferred = moment.written[4] == 0xA2;
    match (named.state, other.state) {
        (CallState::Delivered, _) if transferred => AlikeSeen::NamedAlerts,
        (_, CallState::Delivered) if transferred => AlikeSeen::OtherAlerts,
        _ if transferred => AlikeSeen::Active,
        _ if other.reference == named.reference => AlikeSeen::OwnLink,
        _ if verdict(board.rules(), named, other) == 2 => AlikeSeen::AlertingOff,
        _ => AlikeSeen::NoPair,
    }
}

/// An EctExecute by European rules, by what it comes to on the board with the option 1.
fn executed(moment: &Moment, access: Access, tally: &mut Tally) {
    let Ok(Event::Facility { reference, component }) = Event::read(moment.record) else { return };
    let (Some(named), Some(exchanged)) = (call_of(moment.before, reference), exchanged(moment)) else {
        return;
    };
    let one = if access == Access::European1 { moment.after } else { &exchanged.after };
    let option = [ExecuteSeen::Option0, ExecuteSeen::Option1][moment.before.alerting as usize];
    let behind = !further(component, Operation::Execute).is_empty();
    tally.add((access, option));
    tally.add((access, if behind { ExecuteSeen::Further } else { ExecuteSeen::Written }));
    tally.add_if(component[3] == 2, (access, ExecuteSeen::Long));
    tally.add((access, by_outcome(moment.before, named, one)));
}

fn by_outcome(board: &Board, named: &Call, one: &Board) -> ExecuteSeen {
    let leg = row_of(board, |call| call.reference == named.reference).map_or(0, |row| row.leg);
    let partner = row_of_leg(one, leg).map(|row| row.standing);
    if let Some(Standing::Joined { partner, alerts }) = partner {
        let other = row_of_leg(one, partner).map(|row| row.standing);
        return match (alerts, other) {
            (true, _) => ExecuteSeen::NamedAlerts,
            (_, Some(Standing::Joined { alerts: true, .. })) => ExecuteSeen::OtherAlerts,
            _ => ExecuteSeen::Active,
        };
    }
    let count = |test: &dyn Fn(&Call) -> bool| {
        others(board, named).filter(|row| row.call().is_some_and(test)).count()
    };
    match count(&|call| pairs(named, call, board.alerting)) {
        0 if count(&|call| verdict(board.rules(), named, call) == 2) > 0 => ExecuteSeen::AlertingOff,
        0 => ExecuteSeen::None,
        _ => ExecuteSeen::Several,
    }
}
