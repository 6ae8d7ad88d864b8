//! What occurs by American rules alone.

use crate::board::{Aux, Board, Call, CallState, LinkId, Row};
use crate::component::Operation;
use crate::notice_component::{further, others};
use crate::notice_transfer::higher;
use crate::rules::RuleSet;
use crate::seen_rules::AmericanSeen::{self, *};
use crate::serve::{pairs, verdict};
use crate::tally::Tally;

/// How many other calls pair with a call under that alerting option.
fn partners(board: &Board, call: &Call, alerting: u8) -> usize {
    let fits = |row: &&Row| row.call().is_some_and(|second| pairs(call, second, alerting));
    others(board, call).filter(fits).count()
}

/// An EctExecute, which is rejected though a call or several would pair.
pub fn executed(board: &Board, call: &Call, component: &[u8], tally: &mut Tally) {
    let options = [[Execute00, Execute01], [Execute10, Execute11], [Execute20, Execute21]];
    tally.add(options[board.subscribed as usize][(board.alerting - 2) as usize]);
    let fitting = partners(board, call, board.alerting);
    // The same option by European rules.
    let european = partners(board, call, board.alerting - 2) == 1;
    match board.subscribed {
        0 => tally.add_if(fitting == 1, ExecuteUnsubscribed),
        1 => {
            tally.add([ExecuteNone, ExecuteOne, ExecuteSeveral][fitting.min(2)]);
            tally.add_if(european, ExecuteEuropean);
        }
        _ => {
            let seen = [ExecuteExplicitNone, ExecuteExplicitOne, ExecuteExplicitSeveral];
            tally.add(seen[fitting.min(2)]);
            tally.add_if(european, ExecuteExplicitEuropean);
        }
    }
    tally.add_if(!further(component, Operation::Execute).is_empty(), ExecuteFurther);
    tally.add_if(component[3] == 2, ExecuteLong);
}

/// ExplicitEctExecute with the named call's own LinkId. Where its verdict with itself is 1, only
/// the test that the two calls are not one keeps it from being transferred.
pub fn own_link(board: &Board, call: &Call, tally: &mut Tally) {
    if verdict(RuleSet::American, call, call) == 0 {
        return tally.add(OwnElse);
    }
    tally.add([Own24, Own25][call.direction as usize]);
    let alone = partners(board, call, board.alerting) == 0;
    tally.add(if alone { OwnAlone } else { OwnOther });
}

/// ExplicitEctExecute at verdict 2 where a party that alerts is not transferred.
pub fn not_allowed(named: &Call, other: &Call, tally: &mut Tally) {
    let seen = [[OffNeitherOther, OffNeitherNamed], [OffOneOther, OffOneNamed]];
    tally.add(seen[one_held(named, other) as usize][alerts(named) as usize]);
}

fn one_held(a: &Call, b: &Call) -> bool {
    (a.aux == Aux::Held) != (b.aux == Aux::Held)
}

fn alerts(call: &Call) -> bool {
    call.state == CallState::Delivered
}

/// The record of a transfer.
pub fn by_link(record: &[u8], link: LinkId, tally: &mut Tally) {
    let component = &record[4..4 + record[3] as usize];
    tally.add_if(!further(component, Operation::Explicit(link)).is_empty(), TransferFurther);
}

/// A transfer, by how many are held and which alerts.
pub fn transferred(board: &Board, named: (&Row, &Call), other: (&Row, &Call), tally: &mut Tally) {
    let ((row, a), (second, b)) = (named, other);
    let seen: [[AmericanSeen; 3]; 2] = [
        [NeitherActive, NeitherNamedAlerts, NeitherOtherAlerts],
        [OneActive, OneNamedAlerts, OneOtherAlerts],
    ];
    let which = if alerts(a) { 1 } else { 2 * alerts(b) as usize };
    tally.add(seen[one_held(a, b) as usize][which]);
    let only = partners(board, a, board.alerting) == 1;
    tally.add(if only { OnlyOne } else { SeveralPair });
    match (alerts(a), alerts(b)) {
        (true, _) => one_tell(board, (second, b), (row, a), tally),
        (_, true) => one_tell(board, (row, a), (second, b), tally),
        _ => {}
    }
}

/// The one Tell goes to the Active party, whatever else sets it apart from the other.
fn one_tell(board: &Board, active: (&Row, &Call), alerting: (&Row, &Call), tally: &mut Tally) {
    let lower = active.0.leg < alerting.0.leg;
    tally.add(if lower { OneTellLowerLeg } else { OneTellHigherLeg });
    tally.add([OneTellLowerRow, OneTellHigherRow][higher(board, active.1, alerting.1) as usize]);
}
