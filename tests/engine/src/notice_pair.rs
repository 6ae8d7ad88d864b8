//! Verdicts that were asked for, looked up in the table too: what has to hold then, and what
//! of it occurs.

use crate::board::{Board, Call, Reference, Row, Standing};
use crate::component::Operation;
use crate::invoke::Invoke;
use crate::notice::Moment;
use crate::notice_component::{others, row_of};
use crate::notice_verdict::met;
use crate::pair_table::{entry, situation};
use crate::rules::RuleSet;
use crate::serve::{pairs_at, verdict};
use crate::tally::Tally;

/// Holds each verdict that a component asks for to the table, and what came of the component
/// to what the table says. Tallies the verdicts on which that hangs.
pub fn looked_up(
    moment: &Moment,
    reference: Reference,
    component: &[u8],
    tally: &mut Tally,
) -> Result<(), String> {
    let Some(invoke) = Invoke::read(component) else { return Ok(()) };
    let board = moment.before;
    let Some(row) = row_of(board, |call| call.reference == reference) else { return Ok(()) };
    let Some(named) = row.call() else { return Ok(()) };
    let (rules, asked) = (board.rules(), asked_for(board, named, invoke.operation));
    let mut fitting = Vec::new();
    for (other, second) in &asked {
        let (formula, table) = (verdict(rules, named, second), entry(rules, named, second));
        let verdict = agreed(named, second, formula, table)?;
        if pairs_at(verdict, board.alerting) {
            fitting.push(other.leg);
        }
    }
    came_of_it(partner(moment.after, row.leg), &fitting)?;
    for (other, second) in &asked {
        if fitting.iter().filter(|&&leg| leg != other.leg).count() <= 1 {
            met(named, second, board.alerting, tally);
        }
    }
    Ok(())
}

/// The calls whose verdict with the named one is asked for, with their rows.
fn asked_for<'a>(board: &'a Board, named: &'a Call, operation: Operation) -> Vec<(&'a Row, &'a Call)> {
    let of_operation = |call: &Call| match operation {
        Operation::Execute => board.rules() == RuleSet::European && board.subscribed == 1,
        Operation::Explicit(link) => board.subscribed != 0 && call.link == Some(link),
        Operation::LinkRequest => false,
    };
    let calls = others(board, named).filter_map(|row| Some((row, row.call()?)));
    calls.filter(|(_, call)| of_operation(call)).collect()
}

/// The verdict on two calls, which the formula and the table have to agree on.
pub fn agreed(named: &Call, other: &Call, formula: u8, table: u8) -> Result<u8, String> {
    if formula != table {
        let place = (situation(named), situation(other));
        let calls = format!("named {named:?}, other {other:?}");
        return Err(format!("{calls}: verdict {formula} by the formula, {table} in the table at {place:?}"));
    }
    Ok(table)
}

/// The leg that a leg is joined with.
fn partner(board: &Board, leg: u32) -> Option<u32> {
    board.rows.iter().find_map(|row| match row.standing {
        Standing::Joined { partner, .. } if row.leg == leg => Some(partner),
        _ => None,
    })
}

/// The named call's party is joined with the only one that pairs by the table; with none if
/// there is no or no single one.
pub fn came_of_it(partner: Option<u32>, fitting: &[u32]) -> Result<(), String> {
    let expected = if let &[only] = fitting { Some(only) } else { None };
    if partner != expected {
        let joined = format!("the named call's party was joined with {partner:?}");
        return Err(format!("{joined}, but by the table its call pairs with those of {fitting:?}"));
    }
    Ok(())
}
