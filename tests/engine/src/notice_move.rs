//! What occurs where a log is moved.

use crate::event::{body_length, Answer, OPEN, OPEN_TYPED};
use crate::moving::{bad, records, Way, TYPED};
use crate::notice_cut;
use crate::play::start;
use crate::records::TYPE_AT;
use crate::seen_bad::by_cut;
use crate::seen_move::{MoveSeen, ToNewSeen, ToOldSeen};
use crate::seen_options::by_options;
use crate::tally::Tally;

/// Tallies a log by its records and what they are bad by.
pub fn notice(log: &[u8], way: Way, tally: &mut Tally) {
    let Some((_, rest)) = start(log) else { return bad_options(log, way, tally) };
    let list: Vec<(&[u8], u8)> = records(rest).map(|record| (record, bad(record, way))).collect();
    match list.iter().position(|(_, bad)| *bad != 0) {
        None => moved(log, &list, way, tally),
        Some(place) => refused(log, &list, place, way, tally),
    }
}

fn bad_options(log: &[u8], way: Way, tally: &mut Tally) {
    let seen = match *log {
        [] => MoveSeen::NoOctets,
        [_] => MoveSeen::OneOctet,
        [0 | 1, ..] => MoveSeen::OptionSecond,
        [2, 4, ..] => MoveSeen::OptionsBad24,
        [2, ..] => MoveSeen::OptionsBad2,
        [3, 0..=3, ..] => MoveSeen::OptionFirst3,
        [0xFF, 0..=3, ..] => MoveSeen::OptionFirstFF,
        [_, 0..=3, ..] => MoveSeen::OptionFirstElse,
        _ => MoveSeen::OptionBoth,
    };
    tally.add((way, seen));
    let behind = log.get(2..).unwrap_or(&[]);
    tally.add_if(records(behind).any(|record| bad(record, way) != 0), (way, MoveSeen::OptionsRecord));
}

fn moved(log: &[u8], list: &[(&[u8], u8)], way: Way, tally: &mut Tally) {
    use MoveSeen::*;
    tally.add((way, by_options!(MoveSeen)[log[0] as usize][log[1] as usize]));
    let turned = |record: &[u8]| record[0] == way.turned();
    let count = list.iter().filter(|(record, _)| turned(record)).count();
    let other = list.iter().any(|(record, _)| record[0] == way.back().turned());
    tally.add_if(list.is_empty(), (way, OptionsAlone));
    tally.add_if(!list.is_empty() && count == 0, (way, NoneTurned));
    tally.add_if(count > 1 && count == list.len(), (way, AllTurned));
    tally.add_if(list.first().is_some_and(|(record, _)| turned(record)), (way, FirstTurned));
    tally.add_if(list.last().is_some_and(|(record, _)| turned(record)), (way, LastTurned));
    tally.add_if(other, (way, OtherStays));
    tally.add_if(!other && count > 0, (way, OneForm));
    list.iter().for_each(|(record, _)| moved_record(record, way, tally));
}

fn moved_record(record: &[u8], way: Way, tally: &mut Tally) {
    use MoveSeen::{Kind2, Kind3, Kind4, Kind5, Kind6, Kind7, Kind8};
    use MoveSeen::{TurnedFifteen, TurnedNoDigits, TurnedRestricted};
    let kind = record[0];
    if let OPEN | OPEN_TYPED = kind {
        let digits = record[record.len() - 16];
        if kind == way.turned() {
            tally.add_if(digits == 0, (way, TurnedNoDigits));
            tally.add_if(digits == 15, (way, TurnedFifteen));
            tally.add_if(record[8] == 1, (way, TurnedRestricted));
        } else if way == Way::ToNew {
            let stays = [ToNewSeen::Stays0, ToNewSeen::Stays1, ToNewSeen::Stays2];
            tally.add_each(stays.get(record[TYPE_AT] as usize).copied());
            tally.add_if(digits == 0 && record[TYPE_AT] > 0, ToNewSeen::StaysNoDigits);
        }
    } else {
        let kinds = [Kind2, Kind3, Kind4, Kind5, Kind6, Kind7, Kind8];
        tally.add((way, kinds[kind as usize - 2]));
    }
}

fn refused(log: &[u8], list: &[(&[u8], u8)], place: usize, way: Way, tally: &mut Tally) {
    let (record, returned) = list[place];
    let behind = &list[place + 1..];
    tally.add_if(place == 0, (way, MoveSeen::FirstRecord));
    tally.add_if(place > 0 && behind.is_empty(), (way, MoveSeen::LastRecord));
    match returned {
        3 => cut(record, way, tally),
        4 => {
            let end = 2 + list[..=place].iter().map(|(record, _)| record.len()).sum::<usize>();
            unknown(record[0], &log[end..], way, tally);
        }
        5 => {
            tally.add((way, field(record)));
            let seen = [
                MoveSeen::FieldBefore3,
                MoveSeen::FieldBefore4,
                MoveSeen::FieldBefore5,
                MoveSeen::FieldBeforeTyped,
            ];
            tally.add_each(later(behind, seen).map(|seen| (way, seen)));
        }
        _ => typed(list, place, tally),
    }
}

/// What is bad behind a bad record: cut, of an unknown kind, with a wrong field, typed.
fn later<T: Copy>(behind: &[(&[u8], u8)], seen: [T; 4]) -> impl Iterator<Item = T> {
    let met = [3, 4, 5, TYPED].map(|bad| behind.iter().any(|(record, _)| bad_back(record) == bad));
    seen.into_iter().zip(met).filter(|(_, met)| *met).map(|(seen, _)| seen)
}

/// What a record would be bad by on the way back.
fn bad_back(record: &[u8]) -> u8 {
    bad(record, Way::ToOld)
}

fn cut(record: &[u8], way: Way, tally: &mut Tally) {
    use MoveSeen::{CutField, CutType, CutTyped};
    let kind = record[0];
    tally.add((way, notice_cut::place(record, body_length(kind), by_cut!(MoveSeen))));
    let number_type = record.get(TYPE_AT).filter(|_| kind == OPEN_TYPED);
    tally.add_if(matches!(number_type, Some(1 | 2)), (way, CutTyped));
    tally.add_if(matches!(number_type, Some(3..)), (way, CutType));
    tally.add_if(notice_cut::wrong_field(record), (way, CutField));
}

fn unknown(kind: u8, behind: &[u8], way: Way, tally: &mut Tally) {
    tally.add(match kind {
        0 => (way, MoveSeen::Kind0),
        10 => (way, MoveSeen::Kind10),
        _ => (way, MoveSeen::KindElse),
    });
    tally.add_if(behind.is_empty(), (way, MoveSeen::KindLast));
    let typed = records(behind).next().is_some_and(|record| bad_back(record) == TYPED);
    tally.add_if(typed, (way, MoveSeen::KindTyped));
}

fn field(record: &[u8]) -> MoveSeen {
    match (record[0], record.get(TYPE_AT)) {
        (1, _) => MoveSeen::Field1,
        (2, _) => MoveSeen::Field2,
        (3, _) => MoveSeen::Field3,
        (5, _) => MoveSeen::Field5,
        (7, _) => MoveSeen::Field7,
        (8, _) => MoveSeen::Field8,
        (_, Some(0)) => MoveSeen::Field9,
        (_, Some(1 | 2)) => MoveSeen::FieldTyped,
        (_, Some(3)) => MoveSeen::FieldType3,
        _ => MoveSeen::FieldType,
    }
}

/// 13, which is new to old alone.
fn typed(list: &[(&[u8], u8)], place: usize, tally: &mut Tally) {
    use ToOldSeen::*;
    let (record, _) = list[place];
    let behind = &list[place + 1..];
    tally.add(if record[TYPE_AT] == 1 { Type1 } else { Type2 });
    tally.add_if(record[TYPE_AT + 1] == 0, NoDigits);
    tally.add_if(record[8] == 1, Restricted);
    tally.add_if(place == 0, First);
    tally.add_if(behind.is_empty(), Last);
    tally.add_if(list[..place].iter().any(|(record, _)| record[0] == OPEN_TYPED), Turned);
    tally.add_each(later(behind, [Before3, Before4, Before5, Before13]));
}

/// A record that was played in both forms.
pub fn replayed(way: Way, record: &[u8], answer: Answer, tally: &mut Tally) {
    use MoveSeen::*;
    let turned = record[0] == way.turned();
    let seen = match answer.returned {
        0 if turned => TurnedAccepted,
        1 if turned => Returned1,
        6 if turned => Returned6,
        7 if turned => Returned7,
        8 if turned => Returned8,
        9 => Returned9,
        10 => Returned10,
        11 => Returned11,
        12 => Returned12,
        _ => return,
    };
    tally.add((way, seen));
}
