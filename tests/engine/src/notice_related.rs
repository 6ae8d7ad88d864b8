//! What comes of the last two records of a log in either order, where the request leaves them out.

use crate::either_order::Orders;
use crate::event::{ANSWER, FACILITY, HOLD, INFORM, LEG_FACILITY, OPEN, OPEN_TYPED, PROGRESS, RELEASE};
use crate::exchange::Exchange;
use crate::seen_related::BesideSeen::{self, *};
use crate::seen_related::LeftOutSeen::{self, *};
use crate::seen_related::{Beside, OneSeen};
use crate::stepped::reference;
use crate::tally::Tally;

/// Whether the answers are the same, by the number of each event and its octets.
struct Came<'a> {
    records: [&'a [u8]; 2],
    /// In this order, and in the other, each as they are played.
    returned: [[u8; 2]; 2],
    same: bool,
    numbers: bool,
    board: bool,
    counts: bool,
}

fn came<'a>(exchange: &'a Exchange, orders: &Orders, same: bool) -> Came<'a> {
    let (place, records) = (exchange.places[0], exchange.records());
    let returned = [&orders.first, &orders.second]
        .map(|played| [0, 1].map(|second| played.steps[place + second].returned));
    let end = |text: &[u8]| text.split(|&octet| octet == b'\n').rev().nth(1).map(<[u8]>::to_vec);
    let (first, second) = (&orders.first, &orders.second);
    Came {
        records: [records[place], records[place + 1]],
        returned,
        same,
        numbers: returned[0][0] == returned[1][1] && returned[0][1] == returned[1][0],
        board: first.steps[place + 1].after == second.steps[place + 1].after,
        counts: end(&first.text) == end(&second.text),
    }
}

/// `same` is what was judged.
pub fn notice(exchange: &Exchange, orders: &Orders, same: bool, tally: &mut Tally) {
    let came = came(exchange, orders, same);
    tally.logs += 2;
    tally.events += 2 * orders.first.steps.len() as u64;
    let [first, second] = came.records;
    for (record, beside, in_front) in [(first, second, true), (second, first, false)] {
        let seen = match (record[0], same, in_front) {
            (PROGRESS, true, _) => ProgressSame,
            (PROGRESS, _, true) => ProgressInFront,
            (PROGRESS, _, false) => ProgressBehind,
            (HOLD, true, _) => HoldSame,
            (HOLD, _, true) => HoldInFront,
            (HOLD, _, false) => HoldBehind,
            _ => continue,
        };
        tally.add_each(beside_of(beside[0]).map(|beside: Beside| (beside, seen as BesideSeen)));
        tally.add_each(left_out(&came, record, beside, in_front));
    }
    if reference(first).is_some() && reference(first) == reference(second) {
        on_one(&came, tally);
    }
}

fn beside_of(kind: u8) -> Option<Beside> {
    match kind {
        PROGRESS => Some(Beside::Progress),
        HOLD => Some(Beside::Hold),
        OPEN => Some(Beside::Open),
        OPEN_TYPED => Some(Beside::OpenTyped),
        RELEASE => Some(Beside::Release),
        FACILITY => Some(Beside::Facility),
        _ => None,
    }
}

fn left_out(came: &Came, record: &[u8], beside: &[u8], in_front: bool) -> Vec<LeftOutSeen> {
    let progress = record[0] == PROGRESS;
    let [own, other] = if in_front { came.returned[0] } else { [came.returned[0][1], came.returned[0][0]] };
    let accepted = (own, other) == (0, 0);
    let own_call = record[1..3] == beside[1..3];
    let pick =
        |[with_progress, with_hold]: [LeftOutSeen; 2]| if progress { with_progress } else { with_hold };
    let mut seen = Vec::new();
    match (beside[0], came.same) {
        (FACILITY, false) => {
            seen.push(if came.numbers { FacilityOctets } else { FacilityNumbers });
            seen.extend((!came.counts).then_some(FacilityCounts));
        }
        (RELEASE, false) if came.board => seen.push(ReleaseSameBoard),
        (INFORM, false) if progress => seen.push(InformOther),
        (INFORM, true) if progress => seen.push(InformProgress),
        (INFORM, true) if accepted && own_call => seen.push(InformHold),
        (ANSWER, true) if accepted => seen.push(pick([AnswerProgress, AnswerHold])),
        (LEG_FACILITY, true) if accepted => seen.push(pick([PassedProgress, PassedHold])),
        _ => {}
    }
    seen
}

fn on_one(came: &Came, tally: &mut Tally) {
    use OneSeen::*;
    let equal = came.records[0] == came.records[1];
    tally.add_each(match came.returned {
        [[0, 11], _] if equal => Some(Equal),
        [[0, 0], [0, 0]] => Some(Both),
        [[0, 0], [0, 11]] => Some(BothOrFirst),
        [[0, 0], [11, 0]] => Some(BothOrLast),
        [[0, 11], [0, 0]] => Some(FirstOrBoth),
        [[11, 0], [0, 0]] => Some(LastOrBoth),
        [[0, 11], [0, 11]] => Some(FirstOrFirst),
        [[0, 11], [11, 0]] => Some(FirstAlone),
        [[11, 0], [0, 11]] => Some(SecondAlone),
        [[11, 11], [11, 11]] => Some(Neither),
        [[9, 9], [9, 9]] => Some(Absent),
        _ => None,
    });
    if !came.same {
        tally.add(if came.board { SameBoard } else { OtherBoard });
    }
}
