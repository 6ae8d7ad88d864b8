//! A console of the old kind, which knows the records 0x81 to 0x85 and stops at any other; and each
//! Tell held to the row whose number it has.

use crate::board::{Row, Standing};
use crate::event::INFORM;
use crate::notice::{row_of_leg, Moment};
use crate::seen_type::ConsoleSeen;
use crate::tally::Tally;

const TELL: u8 = 0x82;
const TELL_TYPED: u8 = 0x86;

/// The octets of a record that the old console knows.
fn known(kind: u8) -> Option<usize> {
    match kind {
        0x81 => Some(36),
        TELL => Some(25),
        0x83 => Some(3),
        0x84 => Some(5),
        0x85 => Some(70),
        _ => None,
    }
}

fn known_now(kind: u8) -> Option<usize> {
    if kind == TELL_TYPED {
        Some(26)
    } else {
        known(kind)
    }
}

/// The records as far as a reader knows them, and the octets behind these.
fn read(mut octets: &[u8], length: fn(u8) -> Option<usize>) -> (Vec<&[u8]>, &[u8]) {
    let mut records = Vec::new();
    while let Some((record, rest)) =
        octets.first().and_then(|&kind| length(kind)).and_then(|length| octets.split_at_checked(length))
    {
        records.push(record);
        octets = rest;
    }
    (records, octets)
}

/// What the old console sees of the records of an event.
pub fn seen(written: &[u8]) -> Vec<&[u8]> {
    read(written, known).0
}

/// Each number that the old console sees is of type 0, and it sees just the records before the first
/// 0x86; each Tell says of a number what its row has.
pub fn stands(moment: &Moment) -> Result<(), String> {
    if moment.written.is_empty() {
        return Ok(());
    }
    let (records, rest) = read(moment.written, known_now);
    if !rest.is_empty() {
        return Err(format!("{rest:02x?} is no reply record"));
    }
    let seen = seen(moment.written);
    let before: Vec<&[u8]> = records.iter().copied().take_while(|record| record[0] != TELL_TYPED).collect();
    if seen != before {
        return Err("the old console does not see just the records before the first 0x86".to_string());
    }
    for record in &seen {
        if record[0] == TELL && record[7] == 1 && type_told(moment, record) != Some(0) {
            return Err("the old console sees a number that is not of type 0".to_string());
        }
    }
    records.iter().try_for_each(|record| tell_stands(moment, record))
}

/// The type of the number in a Tell: of its row, or 0 where a private exchange sent the number.
fn type_told(moment: &Moment, record: &[u8]) -> Option<u8> {
    if moment.record[0] == INFORM {
        return Some(0);
    }
    partner(moment, record).map(|row| row.number_type)
}

/// The row that the party told is joined with, as the event found it.
fn partner<'a>(moment: &Moment<'a>, record: &[u8]) -> Option<&'a Row> {
    let leg = u32::from_be_bytes([record[1], record[2], record[3], record[4]]);
    match row_of_leg(moment.after, leg)?.standing {
        Standing::Joined { partner, .. } => row_of_leg(moment.before, partner),
        _ => None,
    }
}

/// Type, digit count and digits of a Tell with its mark.
fn number_told(record: &[u8]) -> Option<(u8, u8, &[u8])> {
    match record {
        [TELL, _, _, _, _, _, _, mark, _, number @ ..] => Some((*mark, 0, number)),
        [TELL_TYPED, _, _, _, _, _, _, mark, _, number_type, number @ ..] => {
            Some((*mark, *number_type, number))
        }
        _ => None,
    }
}

fn tell_stands(moment: &Moment, record: &[u8]) -> Result<(), String> {
    let Some((mark, number_type, number)) = number_told(record) else { return Ok(()) };
    let none = (0, 0, [0; 16].as_slice());
    let due = if moment.record[0] == INFORM {
        // The number is that of the event, which is judged by places.
        (mark, 0, number)
    } else if record[6] == 0xE9 {
        none
    } else {
        let row = partner(moment, record).ok_or("a Tell to a party that is not joined")?;
        match (row.number.0[0], row.presentation) {
            (0, _) => none,
            (_, 1) => (2, 0, none.2),
            _ => (1, row.number_type, row.number.0.as_slice()),
        }
    };
    let typed = due.0 == 1 && due.1 != 0;
    if (mark, number_type, number) != due || typed != (record[0] == TELL_TYPED) {
        return Err(format!("{record:02x?} does not say what it has to of the number"));
    }
    Ok(())
}

/// Tallies what the old console sees.
pub fn notice(moment: &Moment, tally: &mut Tally) {
    use ConsoleSeen::*;
    if moment.written.is_empty() {
        return;
    }
    let rules = moment.before.rules();
    let (records, _) = read(moment.written, known_now);
    let (before, behind) = records.split_at(seen(moment.written).len());
    let tells = |records: &[&[u8]], mark: u8| {
        records.iter().any(|record| record[0] == TELL && record[7] == mark && record[6] == 0xEA)
    };
    let Some((_, behind)) = behind.split_first() else {
        return tally.add_if(tells(before, 1), (rules, WholeNumber));
    };
    tally.add_if(before.is_empty(), (rules, StopsAtFirst));
    tally.add_if(before.last().is_some_and(|record| record[0] == 0x83), (rules, StopsBehindDrops));
    tally.add_if(tells(before, 1), (rules, NumberBefore));
    tally.add_if(tells(before, 2), (rules, WithheldBefore));
    tally.add_if(tells(before, 0), (rules, UnknownBefore));
    tally.add_if(tells(behind, 1), (rules, NumberBehind));
    tally.add_if(tells(behind, 2), (rules, WithheldBehind));
    tally.add_if(tells(behind, 0), (rules, UnknownBehind));
    tally.add_if(behind.iter().any(|record| record[0] == TELL_TYPED), (rules, Two));
}
