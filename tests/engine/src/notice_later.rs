//! Transfers of calls that two accepted events named, which were exchanged.

use crate::board::CallState;
use crate::couple::{row_of, Couple};
use crate::either_order::Step;
use crate::event::{event, PROGRESS};
use crate::notice_transfer::Asked;
use crate::order_past::transferred;
use crate::reply::BUFFER;
use crate::seen_around::AroundSeen::{self, *};
use crate::seen_around::InFrontSeen;
use crate::tally::Tally;

/// The first transfer of one of the two calls, if it comes before the call is released.
pub fn later(couple: &Couple) -> Option<AroundSeen> {
    let behind = couple.place + 2;
    let steps = couple.records[behind..].iter().zip(&couple.played.steps[behind..]);
    let there = |step: &Step| couple.references.map(|reference| row_of(&step.after, reference).is_some());
    let (number, (record, step)) = steps.enumerate().find(|(_, (_, step))| there(step) != [true, true])?;
    transferred(record, &step.written)?;
    match there(step) {
        [false, false] => (number > 0).then_some(LaterBoth),
        [false, true] => Some(LaterFirst),
        _ => Some(LaterSecond),
    }
}

/// The record right behind transfers the two.
pub fn transfer(couple: &Couple, tally: &mut Tally) {
    let Some((record, step)) = couple.next() else { return };
    let Some(joined) = transferred(record, &step.written) else { return };
    let named = match couple.references {
        [first, second] if joined == [first, second] => 0,
        [first, second] if joined == [second, first] => 1,
        _ => return,
    };
    // EctExecute is the one operation that is an integer.
    let execute =
        record.windows(3).any(|octets| octets == [2, 1, 6]) && !record.windows(2).any(|o| o == [6, 6]);
    let asked = if execute { Asked::Execute } else { Asked::by_link(couple.rules()) };
    let alerts = couple.references.map(|reference| {
        let call = row_of(couple.after(), reference).and_then(|(_, row)| row.call());
        call.is_some_and(|call| call.state == CallState::Delivered)
    });
    use InFrontSeen::*;
    tally.add((
        asked,
        match (named, alerts) {
            (0, [false, false]) => NamedFirst,
            (_, [false, false]) => NamedSecond,
            (0, [true, _]) => FirstNamedAlerts,
            (0, _) => FirstNamedOther,
            (_, [_, true]) => SecondNamedAlerts,
            _ => SecondNamedOther,
        },
    ));
    tally.add((
        asked,
        match couple.two().map(|record| record[0] == PROGRESS) {
            [true, true] => ProgressProgress,
            [true, false] => ProgressHold,
            [false, true] => HoldProgress,
            [false, false] => HoldHold,
        },
    ));
    let without = |left: usize| {
        let (mut board, mut buffer) = (couple.before().clone(), [0; BUFFER]);
        event(&mut board, couple.two()[left], &mut buffer);
        let written = event(&mut board, record, &mut buffer).written;
        transferred(record, &buffer[..written]).is_some()
    };
    tally.add_if(!without(0) && !without(1), (asked, NeedsBoth));
}
