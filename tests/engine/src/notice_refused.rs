//! What occurs where an event is refused, but for Leg facilities and Informs.

use crate::board::{Board, Call, Reference, Standing};
use crate::event::{Event, HOLD, OPEN, OPEN_TYPED, PROGRESS};
use crate::notice::{call_of, row_of_leg, Moment, Past};
use crate::notice_answer;
use crate::notice_leg;
use crate::notice_open;
use crate::tally::{Seen, Tally};

/// The reference that stands first in the body of most records.
pub fn reference(record: &[u8]) -> Reference {
    Reference(u16::from_be_bytes([record[1], record[2]]))
}

pub fn bad_field(moment: &Moment, tally: &mut Tally) {
    let record = moment.record;
    let reference = reference(record);
    tally.add_if(reference.0 == 0, Seen::BadReference0);
    tally.add_if(reference.0 == 0x8000, Seen::BadReference8000);
    match record[0] {
        OPEN | OPEN_TYPED => bad_open(moment, tally),
        PROGRESS => tally.add_if(record[3] != 4 && record[3] != 10, Seen::BadState),
        HOLD => tally.add_if(record[3] > 3, Seen::BadAux),
        _ => {
            tally.add_if(record[3] == 0, Seen::BadCountZero);
            tally.add_if(record[3] > 32, Seen::BadCountHigh);
            tally.add_if((1..=32).contains(&record[3]), Seen::BadComponentFill);
        }
    }
    let opens = matches!(record[0], OPEN | OPEN_TYPED);
    let absent = !opens && reference.valid() && call_of(moment.before, reference).is_none();
    tally.add_if(absent, Seen::FieldBeforeAbsent);
}

fn bad_open(moment: &Moment, tally: &mut Tally) {
    let record = moment.record;
    tally.add_if(record[7] > 1, Seen::BadDirection);
    tally.add_if(record[8] > 1, Seen::BadPresentation);
    let (count, octets) = (record[record.len() - 16], &record[record.len() - 15..]);
    tally.add_if(count > 15, Seen::BadDigitCount);
    if count <= 15 {
        let (digits, fill) = octets.split_at(count as usize);
        tally.add_if(digits.iter().any(|octet| !octet.is_ascii_digit()), Seen::BadDigit);
        tally.add_if(fill.iter().any(|&octet| octet != 0), Seen::BadDigitFill);
    }
    tally.add_if(taken(moment.before, record).0, Seen::FieldBeforeTaken);
    notice_open::bad_field(moment, tally);
}

/// Whether the leg of an Open is on the board, a call has its reference, and no row is empty.
pub fn taken(board: &Board, record: &[u8]) -> (bool, bool, bool) {
    let leg = u32::from_be_bytes([record[3], record[4], record[5], record[6]]);
    let full = board.rows.iter().all(|row| row.standing != Standing::Empty);
    (row_of_leg(board, leg).is_some(), call_of(board, reference(record)).is_some(), full)
}

pub fn open_refused(moment: &Moment, tally: &mut Tally) {
    let Ok(Event::Open { leg, .. }) = Event::read(moment.record) else { return };
    let (_, in_use, full) = taken(moment.before, moment.record);
    notice_open::refused(moment, tally);
    match moment.returned {
        6 => {
            let joined = row_of_leg(moment.before, leg).is_some_and(|row| row.call().is_none());
            tally.add(Seen::LegTaken);
            tally.add_if(joined, Seen::LegJoinedTaken);
            tally.add_if(in_use, Seen::LegBeforeReference);
            tally.add_if(full, Seen::LegBeforeFull);
        }
        7 => {
            tally.add(Seen::ReferenceTaken);
            tally.add_if(full, Seen::ReferenceBeforeFull);
        }
        _ => tally.add(Seen::BoardFull),
    }
}

pub fn no_call(moment: &Moment, past: &Past, tally: &mut Tally) {
    tally.add(match moment.record[0] {
        PROGRESS => Seen::NoCallProgress,
        HOLD => Seen::NoCallHold,
        _ => Seen::NoCallFacility,
    });
    tally.add_if(past.references.contains(&reference(moment.record)), Seen::NoCallTransferred);
}

pub fn not_permitted(moment: &Moment, past: &Past, tally: &mut Tally) {
    match Event::read(moment.record) {
        Ok(Event::Progress { .. }) => tally.add(Seen::ProgressRefused),
        Ok(Event::Hold { reference, .. }) => {
            let step = call_of(moment.before, reference).is_some_and(Call::may_hold);
            tally.add(if step { Seen::HoldStepRefused } else { Seen::HoldStateRefused });
        }
        Ok(Event::Answer { leg }) => {
            let Some(row) = row_of_leg(moment.before, leg) else { return };
            notice_answer::refused(moment, row, past, tally);
            notice_leg::not_answered(row, past, tally);
        }
        _ => {}
    }
}
