//! Moving stored logs over: to the form in which an Open says the type of its number, and back.

use crate::board::UNKNOWN;
use crate::event::{body_length, Answer, Event, OPEN, OPEN_TYPED};
use crate::play::{next_record, start};
use crate::records::TYPE_AT;

/// What an event 9 of type 1 or 2 gives on the way back.
pub const TYPED: u8 = 13;

#[derive(Clone, Copy, PartialEq, Eq, Debug)]
pub enum Way {
    ToNew,
    ToOld,
}

impl Way {
    pub const BOTH: [Way; 2] = [Way::ToNew, Way::ToOld];

    pub fn back(self) -> Way {
        match self {
            Way::ToNew => Way::ToOld,
            Way::ToOld => Way::ToNew,
        }
    }

    /// The form that comes out.
    pub fn word(self) -> &'static str {
        match self {
            Way::ToNew => "new",
            Way::ToOld => "old",
        }
    }

    /// The kind that is turned into the other.
    pub fn turned(self) -> u8 {
        match self {
            Way::ToNew => OPEN,
            Way::ToOld => OPEN_TYPED,
        }
    }
}

/// Why a log is not moved, or not packed: what is returned, and the number of the record from 1, or 0
/// where it is none.
#[derive(Clone, Copy, PartialEq, Eq, Debug)]
pub struct Refusal {
    pub returned: u8,
    pub record: u64,
}

/// The records of a log's octets behind the options, as the player reads them.
pub fn records(mut rest: &[u8]) -> impl Iterator<Item = &[u8]> {
    std::iter::from_fn(move || {
        let (record, after) = next_record(rest)?;
        rest = after;
        Some(record)
    })
}

/// Those in front of one that is cut or of an unknown kind.
pub fn whole_records(rest: &[u8]) -> impl Iterator<Item = &[u8]> {
    records(rest).take_while(|record| body_length(record[0]) == Some(record.len() - 1))
}

/// What a record is bad by, or 0.
pub fn bad(record: &[u8], way: Way) -> u8 {
    match Event::read(record) {
        Err(refusal) => refusal,
        Ok(Event::Open { number_type, .. }) if way == Way::ToOld && number_type != UNKNOWN => TYPED,
        Ok(_) => 0,
    }
}

/// The octets of the moved log, or why there is none.
pub fn judge(log: &[u8], way: Way) -> Result<usize, Refusal> {
    let (_, rest) = start(log).ok_or(Refusal { returned: 5, record: 0 })?;
    let mut length = 2;
    for (record, number) in records(rest).zip(1..) {
        match bad(record, way) {
            0 => length += moved(record, way).iter().map(|part| part.len()).sum::<usize>(),
            returned => return Err(Refusal { returned, record: number }),
        }
    }
    Ok(length)
}

/// The parts of a good record in the form that comes out.
fn moved(record: &[u8], way: Way) -> [&[u8]; 4] {
    match (way, record[0]) {
        (Way::ToNew, OPEN) => [&[OPEN_TYPED], &record[1..TYPE_AT], &[UNKNOWN], &record[TYPE_AT..]],
        (Way::ToOld, OPEN_TYPED) => [&[OPEN], &record[1..TYPE_AT], &[], &record[TYPE_AT + 1..]],
        _ => [record, &[], &[], &[]],
    }
}

/// Moves a log into the front of the target. A refusal leaves the target as it was.
pub fn move_log(log: &[u8], way: Way, target: &mut [u8]) -> Answer {
    let refused = |returned| Answer { returned, written: 0 };
    let length = match judge(log, way) {
        Ok(length) => length,
        Err(refusal) => return refused(refusal.returned),
    };
    if target.len() < length {
        return refused(1);
    }
    target[..2].copy_from_slice(&log[..2]);
    let mut written = 2;
    for part in records(&log[2..]).flat_map(|record| moved(record, way)) {
        target[written..written + part.len()].copy_from_slice(part);
        written += part.len();
    }
    Answer { returned: 0, written }
}

/// The moved log, or why there is none.
pub fn moved_log(log: &[u8], way: Way) -> Result<Vec<u8>, Refusal> {
    let mut target = vec![0; judge(log, way)?];
    move_log(log, way, &mut target);
    Ok(target)
}
