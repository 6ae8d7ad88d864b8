//! What stands around two events that are exchanged: the records beside them.

use crate::board::{Call, LinkId, Reference};
use crate::couple::{row_of, Couple};
use crate::either_order::Step;
use crate::event::{ANSWER, FACILITY, INFORM, PROGRESS};
use crate::notice_later::{later, transfer};
use crate::order_past::{opened, released, transferred};
use crate::seen_around::AroundSeen::{self, *};
use crate::stepped::reference;
use crate::tally::Tally;

pub fn notice(couple: &Couple, tally: &mut Tally) {
    let rules = couple.rules();
    let mut seen = behind(couple);
    seen.extend(in_front(couple));
    seen.extend(at_an_end(couple));
    if couple.accepted() {
        seen.extend(later(couple));
        transfer(couple, tally);
    }
    tally.add_each(seen.into_iter().map(|seen| (rules, seen)));
}

/// The occurrence of the one of the two whose reference this is.
fn of<T>(couple: &Couple, named: Option<Reference>, [first, second]: [T; 2]) -> Option<T> {
    let [one, other] = couple.references.map(|reference| Some(reference) == named);
    match named {
        Some(_) if one => Some(first),
        Some(_) if other => Some(second),
        _ => None,
    }
}

/// The call to which a Facility gave its LinkId.
fn linked(record: &[u8], step: &Step, before: impl Fn(Reference) -> Option<LinkId>) -> Option<Reference> {
    let &[FACILITY, high, low, ..] = record else { return None };
    let named = Reference(u16::from_be_bytes([high, low]));
    let (_, row) = row_of(&step.after, named)?;
    let now = row.call().and_then(|call: &Call| call.link);
    (now.is_some() && before(named).is_none()).then_some(named)
}

fn behind(couple: &Couple) -> Vec<AroundSeen> {
    let Some((record, step)) = couple.last() else { return Vec::new() };
    let mut seen = Vec::new();
    let found = couple.played.before(couple.place - 1);
    let link = |named| row_of(found, named).and_then(|(_, row)| row.call()?.link);
    seen.extend(of(couple, opened(record, step.returned), [BehindOpenFirst, BehindOpenSecond]));
    seen.extend(of(couple, released(record, &step.written), [BehindReleaseFirst, BehindReleaseSecond]));
    seen.extend(of(couple, linked(record, step, link), [BehindLinkFirst, BehindLinkSecond]));
    if let Some(joined) = transferred(record, &step.written) {
        seen.extend(match couple.references.map(|reference| joined.contains(&reference)) {
            [true, true] => Some(BehindTransferBoth),
            [true, false] => Some(BehindTransferFirst),
            [false, true] => Some(BehindTransferSecond),
            _ => None,
        });
    }
    let own = match step.returned {
        0 => [BehindOwnFirst, BehindOwnSecond],
        _ => [BehindRefusedFirst, BehindRefusedSecond],
    };
    seen.extend(of(couple, reference(record), own).filter(|_| step.returned != 9));
    seen.extend(match (record[0], step.returned) {
        (INFORM, 0) => Some(BehindInform),
        (ANSWER, 0) => Some(BehindAnswer),
        _ => None,
    });
    seen
}

fn in_front(couple: &Couple) -> Vec<AroundSeen> {
    let Some((record, step)) = couple.next() else { return Vec::new() };
    let mut seen = Vec::new();
    let opened = opened(record, step.returned);
    seen.extend(of(couple, opened, [InFrontOpenFirst, InFrontOpenSecond]));
    if !couple.accepted() {
        return seen;
    }
    let link = |named| row_of(couple.after(), named).and_then(|(_, row)| row.call()?.link);
    seen.extend(of(couple, released(record, &step.written), [InFrontReleaseFirst, InFrontReleaseSecond]));
    seen.extend(of(couple, linked(record, step, link), [InFrontLinkFirst, InFrontLinkSecond]));
    let own = reference(record).filter(|_| step.returned == 0);
    seen.extend(of(couple, own, [InFrontOwnFirst, InFrontOwnSecond]));
    seen.extend((record[0] == ANSWER && step.returned == 0).then_some(InFrontAnswer));
    if let ([INFORM, high, low, ..], 0) = (record, step.returned) {
        let named = Reference(u16::from_be_bytes([*high, *low]));
        let [first, second] = couple.two().map(|record| record[0] == PROGRESS);
        let inform = of(couple, Some(named), [(first, InFrontInformFirst), (second, InFrontInformSecond)]);
        seen.extend(inform.filter(|(progress, _)| *progress).map(|(_, seen)| seen));
    }
    seen
}

fn at_an_end(couple: &Couple) -> Vec<AroundSeen> {
    let next = couple.next().map(|(_, step)| step.returned);
    let met = [
        (LogStart, couple.place == 0),
        (LogEnd, next.is_none()),
        (InFrontCut, next == Some(3)),
        (InFrontUnknown, next == Some(4)),
        (Figures2, couple.place + 1 == 9),
        (Figures3, couple.place + 1 == 99),
    ];
    met.into_iter().filter(|(_, met)| *met).map(|(seen, _)| seen).collect()
}
