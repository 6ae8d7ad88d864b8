//! What occurs where the attendant's console plays an event.

use crate::attendant::Way;
use crate::board::{Board, Reference};
use crate::event::{
    body_length, ANSWER, FACILITY, HOLD, INFORM, LEG_FACILITY, OPEN, OPEN_TYPED, PROGRESS, RELEASE,
};
use crate::memory::Memory;
use crate::notice_lines;
use crate::rows::lookup;
use crate::screened::{row_of, Moment};
use crate::seen_screen::EventSeen::{self, *};
use crate::seen_screen::LineSeen::{self, *};
use crate::seen_screen::Taken;
use crate::tally::Tally;

pub fn notice(record: &[u8], moment: &Moment, memory: &Memory, tally: &mut Tally) {
    tally.add((Taken::of(moment.was), outcome(record[0], moment.returned)));
    let Some(leg) = named(record, moment.before) else { return };
    if moment.returned == 0 {
        lines(moment, memory, tally);
        accepted(record, leg, moment, memory, tally);
    } else {
        tally.add_each(refused(record[0], leg, moment, memory));
    }
}

fn outcome(kind: u8, returned: u8) -> EventSeen {
    const KINDS: [EventSeen; 9] = [Kind1, Kind2, Kind3, Kind4, Kind5, Kind6, Kind7, Kind8, Kind9];
    match returned {
        0 => KINDS[usize::from(kind) - 1],
        3 => Returned3,
        4 => Returned4,
        5 => Returned5,
        6 => Returned6,
        7 => Returned7,
        8 => Returned8,
        9 => Returned9,
        10 => Returned10,
        11 => Returned11,
        _ => Returned12,
    }
}

/// The leg that a whole record names, itself or by its call's reference.
fn named(record: &[u8], board: &Board) -> Option<u32> {
    if body_length(record[0]) != Some(record.len() - 1) {
        return None;
    }
    match *record {
        [RELEASE | ANSWER | LEG_FACILITY, a, b, c, d, ..] => Some(u32::from_be_bytes([a, b, c, d])),
        [OPEN | OPEN_TYPED, _, _, a, b, c, d, ..] => Some(u32::from_be_bytes([a, b, c, d])),
        [_, high, low, ..] => match lookup(&board.rows, Reference(u16::from_be_bytes([high, low]))) {
            (0, place) => Some(board.rows[place].leg),
            _ => None,
        },
        _ => None,
    }
}

/// Which lines become empty, and which show their legs in another way.
fn lines(moment: &Moment, memory: &Memory, tally: &mut Tally) {
    let (was, is) = (&moment.was.0, &moment.is.0);
    let emptied: Vec<usize> =
        (0..was.len()).filter(|&line| was[line].is_some() && is[line].is_none()).collect();
    match *emptied {
        [line] => {
            let others = |lines: &[Option<_>]| lines.iter().any(Option::is_some);
            tally.add_each(match (others(&is[..line]), others(&is[line..])) {
                (false, true) => Some(EmptyLowest),
                (true, true) => Some(EmptyBetween),
                (true, false) => Some(EmptyHighest),
                (false, false) => None,
            });
        }
        [first, second] => {
            tally.add_if(is[first..second].iter().any(Option::is_some), EmptyTwo);
            tally.add_if(first + 1 == second, EmptyTwoBeside);
        }
        _ => {}
    }
    if !emptied.is_empty() {
        tally.add_if(Taken::of(moment.is) == Taken::No, EmptyAll);
        tally.add_if(Taken::of(moment.was) == Taken::All, EmptyFull);
        let waits = |leg: u32| row_of(moment.after, leg).is_some() && moment.is.line_of(leg).is_none();
        tally.add_if(memory.full.iter().any(|&leg| waits(leg)), EmptyPending);
    }
    let changed = (0..was.len()).filter(|&line| is[line].is_some() && was[line] != is[line]).count();
    tally.add_if(changed == 1, Changed);
    tally.add_if(changed == 2, ChangedTwo);
}

fn accepted(record: &[u8], leg: u32, moment: &Moment, memory: &Memory, tally: &mut Tally) {
    let back = memory.gone.iter().any(|gone| row_of(moment.before, gone.leg).is_some());
    tally.add_if(back, AgainEvent);
    let shown = moment.was.line_of(leg).is_some();
    match record[0] {
        OPEN | OPEN_TYPED => {
            let line = memory.gone(leg).map(|gone| moment.is.0[gone.line]);
            tally.add_each(line.map(|line| if line.is_none() { Again } else { AgainTaken }));
        }
        PROGRESS => tally.add_if(shown, ProgressShown),
        HOLD => tally.add_if(shown, HoldShown),
        INFORM => tally.add_if(shown, InformShown),
        LEG_FACILITY => tally.add_if(shown, PassShown),
        FACILITY => {
            let transferred = notice_lines::transfer(leg, moment, tally);
            tally.add_if(!transferred && shown, FacilityShown);
        }
        ANSWER => notice_lines::answer(leg, moment, tally),
        _ => notice_lines::release(leg, moment, tally),
    }
}

fn refused(kind: u8, leg: u32, moment: &Moment, memory: &Memory) -> Option<LineSeen> {
    let way = moment.was.line_of(leg).and_then(|line| moment.was.0[line]).map(|shown| shown.way);
    let gone = memory.gone(leg).is_some();
    match (kind, moment.returned, way) {
        (OPEN | OPEN_TYPED, 5, Some(_)) => Some(Open5Shown),
        (OPEN | OPEN_TYPED, 6, Some(_)) => Some(Open6Shown),
        (RELEASE, 10, _) if gone => Some(Release10Gone),
        (ANSWER, 10, _) if gone => Some(Answer10Gone),
        (LEG_FACILITY, 10, _) if gone => Some(Facility10Gone),
        (ANSWER, 11, Some(Way::User)) => Some(Answer11User),
        (ANSWER, 11, Some(Way::Joined)) => Some(Answer11Joined),
        (LEG_FACILITY, 11, Some(_)) => Some(Facility11Shown),
        (PROGRESS, 11, Some(_)) => Some(Progress11Shown),
        (HOLD, 11, Some(_)) => Some(Hold11Shown),
        (LEG_FACILITY, 12, Some(_)) => Some(Facility12Shown),
        _ => None,
    }
}
