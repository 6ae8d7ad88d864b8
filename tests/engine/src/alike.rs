//! Each event where the service is served, played a second time on the same board with the option
//! "subscribed" exchanged, 2 for 1 or 1 for 2: it comes to the same but for an EctExecute.

use crate::board::Board;
use crate::component::{read, Operation, Reading};
use crate::event::{event, Answer, Event};
use crate::notice::Moment;
use crate::reply::BUFFER;
use crate::rules::RuleSet;

/// The rule set and the option, where the service is served.
#[derive(Clone, Copy, PartialEq, Eq, Debug)]
pub enum Access {
    European1,
    European2,
    American1,
    American2,
}

impl Access {
    pub fn of(board: &Board) -> Option<Access> {
        match (board.rules(), board.subscribed) {
            (RuleSet::European, 1) => Some(Access::European1),
            (RuleSet::European, 2) => Some(Access::European2),
            (RuleSet::American, 1) => Some(Access::American1),
            (RuleSet::American, 2) => Some(Access::American2),
            _ => None,
        }
    }
}

/// What an event comes to on a board.
#[derive(PartialEq, Eq, Debug)]
pub struct Outcome {
    pub returned: u8,
    pub written: Vec<u8>,
    pub after: Board,
}

/// What the event comes to with the option exchanged; none where the service is refused.
pub fn exchanged(moment: &Moment) -> Option<Outcome> {
    let subscribed = match moment.before.subscribed {
        1 => 2,
        2 => 1,
        _ => return None,
    };
    let mut after = Board { subscribed, ..moment.before.clone() };
    let mut buffer = [0x5A; BUFFER];
    let Answer { returned, written } = event(&mut after, moment.record, &mut buffer);
    Some(Outcome { returned, written: buffer[..written].to_vec(), after })
}

/// The identifier of an EctExecute on a call that is there, by European rules, where the option
/// makes a difference.
pub fn execute<'a>(moment: &Moment<'a>) -> Option<&'a [u8]> {
    if moment.before.rules() != RuleSet::European || moment.returned != 0 {
        return None;
    }
    let Ok(Event::Facility { component, .. }) = Event::read(moment.record) else { return None };
    match read(component) {
        Reading::Invoke { identifier, operation: Operation::Execute } => Some(identifier),
        _ => None,
    }
}

/// The event comes to the same with the option exchanged; an EctExecute by European rules is rejected
/// with 2 and served with 1.
pub fn stands(moment: &Moment) -> Result<(), String> {
    let Some(exchanged) = exchanged(moment) else { return Ok(()) };
    let own =
        Outcome { returned: moment.returned, written: moment.written.to_vec(), after: moment.after.clone() };
    let (one, two) = if moment.before.subscribed == 1 { (own, exchanged) } else { (exchanged, own) };
    if (one.after.subscribed, two.after.subscribed) != (1, 2) {
        return Err("the event changed the option \"subscribed\"".to_string());
    }
    match execute(moment) {
        Some(identifier) => executed(moment, identifier, &one, &two),
        None => same(&one, &two),
    }
}

fn same(one: &Outcome, two: &Outcome) -> Result<(), String> {
    if (one.returned, &one.written) != (two.returned, &two.written) {
        return Err(format!("with first octet 1 {}, with 2 {}", told(one), told(two)));
    }
    if one.after != (Board { subscribed: 1, ..two.after.clone() }) {
        return Err("with first octet 1 and with 2 the board becomes another".to_string());
    }
    Ok(())
}

fn told(outcome: &Outcome) -> String {
    format!("{} and {:02x?}", outcome.returned, outcome.written)
}

/// With 2 a Reject with the identifier, invoke problem 1, and the board as it was; with 1 a result or
/// error 7.
fn executed(moment: &Moment, identifier: &[u8], one: &Outcome, two: &Outcome) -> Result<(), String> {
    let reject = [&[0xA4, identifier.len() as u8 + 3], identifier, &[0x81, 1, 1]].concat();
    let mut reply = [&[0x81, moment.record[1], moment.record[2], reject.len() as u8], &reject[..]].concat();
    reply.resize(36, 0);
    if two.returned != 0 || two.written != reply {
        return Err(format!("EctExecute with first octet 2: {}", told(two)));
    }
    if two.after != (Board { subscribed: 2, ..moment.before.clone() }) {
        return Err("EctExecute with first octet 2 changed the board".to_string());
    }
    let error_7 = [&[0xA3, identifier.len() as u8 + 3], identifier, &[2, 1, 7]].concat();
    let served = matches!(&one.written[..], [0x81, _, _, _, 0xA2, ..])
        || one.written.get(4..).is_some_and(|component| component.starts_with(&error_7));
    if one.returned != 0 || !served {
        return Err(format!("EctExecute with first octet 1: {}", told(one)));
    }
    Ok(())
}
