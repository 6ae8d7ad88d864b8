//! What occurs of Opens, of both kinds.

use crate::board::{INCOMING, NATIONAL, ROWS, UNKNOWN};
use crate::event::{Event, OPEN, OPEN_TYPED};
use crate::notice::{Moment, Past};
use crate::notice_refused::taken;
use crate::records::TYPE_AT;
use crate::rules::RuleSet;
use crate::seen_type::{OpenSeen, TypeSeen};
use crate::tally::Tally;

/// By which Open a party came: of kind 1, or of kind 9 with a type.
#[derive(Clone, Copy, PartialEq, Eq, Debug)]
pub enum Opened {
    Kind1,
    Type0,
    Type1,
    Type2,
}

impl Opened {
    /// Of an Open whose fields are right.
    fn by(record: &[u8]) -> Opened {
        match (record[0], record[TYPE_AT]) {
            (OPEN, _) => Opened::Kind1,
            (_, 0) => Opened::Type0,
            (_, 1) => Opened::Type1,
            _ => Opened::Type2,
        }
    }
}

/// An Open that was accepted, with the row that it took.
pub fn opened(moment: &Moment, place: usize, past: &mut Past, tally: &mut Tally) {
    let by = Opened::by(moment.record);
    let row = &moment.after.rows[place];
    let incoming = row.call().is_some_and(|call| call.direction == INCOMING);
    tally.add((by, if incoming { OpenSeen::Incoming } else { OpenSeen::Outgoing }));
    tally.add(match (row.number.count(), row.presentation) {
        (0, 0) => (by, OpenSeen::NoDigits),
        (0, _) => (by, OpenSeen::RestrictedNone),
        (_, 0) => (by, OpenSeen::Given),
        _ => (by, OpenSeen::Withheld),
    });
    tally.add_if(row.number.count() == 1, (by, OpenSeen::One));
    tally.add_if(row.number.count() == 15, (by, OpenSeen::Fifteen));
    tally.add_if(moment.before.rules() == RuleSet::American, (by, OpenSeen::American));
    tally.add_if(moment.before.subscribed == 0, (by, OpenSeen::Unsubscribed));
    tally.add_if(place == ROWS - 1, (by, OpenSeen::LastRow));
    let before = past.types.insert(place, row.number_type);
    tally.add_if(before.is_some_and(|before| before != row.number_type), (by, OpenSeen::OtherBefore));
}

/// One that was refused by 6, 7 or 8.
pub fn refused(moment: &Moment, tally: &mut Tally) {
    let seen = match moment.returned {
        6 => OpenSeen::LegTaken,
        7 => OpenSeen::ReferenceTaken,
        _ => OpenSeen::BoardFull,
    };
    tally.add((Opened::by(moment.record), seen));
}

/// One that the end of the log has cut.
pub fn cut(record: &[u8], tally: &mut Tally) {
    if record[0] != OPEN_TYPED {
        return;
    }
    tally.add(match record.len() {
        1 => TypeSeen::CutAfterKind,
        25 => TypeSeen::CutOneShort,
        length if length <= TYPE_AT => TypeSeen::CutBeforeType,
        length if length == TYPE_AT + 1 => TypeSeen::CutAfterType,
        _ => TypeSeen::CutElsewhere,
    });
    tally.add_if(record.get(TYPE_AT).is_some_and(|&octet| octet > NATIONAL), TypeSeen::CutBadType);
}

/// One with a field outside its range, by the field where it is one alone.
pub fn bad_field(moment: &Moment, tally: &mut Tally) {
    let record = moment.record;
    let right = |record: &[u8]| Event::read(record).is_ok();
    if record[0] == OPEN {
        // The octet that is missing at the end is a zero.
        let other = [&[OPEN_TYPED], &record[1..], &[0]].concat();
        return tally.add_if(right(&other), TypeSeen::PlacesOf9);
    }
    let with = |place: usize, octets: &[u8]| {
        let mut record = record.to_vec();
        record[place..place + octets.len()].copy_from_slice(octets);
        record
    };
    tally.add_if(right(&[&[OPEN], &record[1..25]].concat()) && record[25] == 0, TypeSeen::PlacesOf1);
    let number_type = record[TYPE_AT];
    if number_type > NATIONAL {
        let mended = with(TYPE_AT, &[UNKNOWN]);
        if !right(&mended) {
            return tally.add(TypeSeen::TypeAndOther);
        }
        tally.add(match number_type {
            3 => TypeSeen::Type3,
            4 => TypeSeen::Type4,
            255 => TypeSeen::Type255,
            _ => TypeSeen::TypeElse,
        });
        return type_first(moment, &mended, tally);
    }
    let number = &record[TYPE_AT + 1..];
    let seen = [
        (with(1, &[0, 1]), if record[1] == 0 { TypeSeen::Reference0 } else { TypeSeen::Reference8000 }),
        (with(7, &[0]), TypeSeen::Direction),
        (with(8, &[0]), TypeSeen::Presentation),
        (with(TYPE_AT + 1, &[0; 16]), bad_number(number)),
    ];
    tally.add_each(seen.iter().find(|(mended, _)| right(mended)).map(|(_, seen)| *seen));
}

/// What would follow, were the type a right one.
fn type_first(moment: &Moment, mended: &[u8], tally: &mut Tally) {
    let (leg, reference, full) = taken(moment.before, mended);
    tally.add_if(leg, TypeSeen::TypeBeforeLeg);
    tally.add_if(!leg && reference, TypeSeen::TypeBeforeReference);
    tally.add_if(!leg && !reference && full, TypeSeen::TypeBeforeFull);
}

fn bad_number(number: &[u8]) -> TypeSeen {
    let count = number[0] as usize;
    match number[1..].get(..count) {
        None => TypeSeen::DigitCount,
        Some(digits) if digits.iter().all(u8::is_ascii_digit) => TypeSeen::DigitFill,
        _ => TypeSeen::Digit,
    }
}
