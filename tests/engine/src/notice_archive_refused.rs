//! What occurs where an archive is not unpacked.

use crate::archive::{unpacked, Work, LARGEST_ARCHIVE};
use crate::archive_faults::Faults;
use crate::archive_places::{body, records, KINDS_AT};
use crate::fields::{call, in_range};
use crate::moving::Refusal;
use crate::notice_refusal::{field, numbers, options_or_size, unknown};
use crate::seen_archive::ArchiveSeen;
use crate::tally::Tally;

pub fn notice(archive: &[u8], faults: &Faults, refusal: Refusal, tally: &mut Tally) {
    if faults.large || faults.options {
        return archive_options(archive, faults, tally);
    }
    if faults.count_cut {
        use ArchiveSeen::{Count2, Count3, Count4, Count5};
        return tally.add([Count2, Count3, Count4, Count5][archive.len() - 2]);
    }
    let count = u32::from_be_bytes([archive[2], archive[3], archive[4], archive[5]]) as usize;
    if faults.kinds_cut {
        return kinds_cut(archive, count, faults, tally);
    }
    let (kinds, bodies) = archive[KINDS_AT..].split_at(count);
    if let Some(number) = faults.unknown {
        numbers(number, count, Work::Unpack, tally);
        unknown(kinds[number as usize - 1], Work::Unpack, tally);
        return unknown_kinds(kinds, bodies, faults, tally);
    }
    if faults.length.is_some() {
        return length(kinds, bodies, faults, tally);
    }
    numbers(refusal.record, count, Work::Unpack, tally);
    let list: Vec<Vec<u8>> = records(archive, kinds, KINDS_AT).into_iter().flatten().collect();
    fields(&list, refusal.record as usize - 1, tally);
}

fn archive_options(archive: &[u8], faults: &Faults, tally: &mut Tally) {
    use ArchiveSeen::*;
    let larger = options_or_size(archive, LARGEST_ARCHIVE, Work::Unpack, tally);
    if larger && faults.options {
        return;
    }
    let seen = match *faults {
        Faults { count_cut: true, .. } if archive.len() > 1 => OptionsCount,
        Faults { kinds_cut: true, .. } if larger => LargerKinds,
        Faults { kinds_cut: true, .. } => OptionsKinds,
        Faults { unknown: Some(_), .. } if larger => LargerUnknown,
        Faults { unknown: Some(_), .. } => OptionsUnknown,
        Faults { length: Some(_), .. } if larger => LargerLength,
        Faults { length: Some(std::cmp::Ordering::Less), .. } => OptionsShort,
        Faults { length: Some(_), .. } => OptionsLong,
        Faults { field: Some(_), .. } if larger => LargerField,
        Faults { field: Some(_), .. } => OptionsField,
        _ => return,
    };
    tally.add(seen);
}

fn kinds_cut(archive: &[u8], count: usize, faults: &Faults, tally: &mut Tally) {
    use ArchiveSeen::*;
    let there = archive.len() - KINDS_AT;
    tally.add_if(there == 0, NoKinds);
    tally.add(match count - there {
        1 => LacksOne,
        2..=65_535 => Lacks,
        _ => LacksMany,
    });
    tally.add_if(count == 0xFFFF_FFFF, CountMost);
    tally.add_if((0xFFFF_FFB0..0xFFFF_FFFF).contains(&count), CountNear);
    tally.add_if((0x8000_0000..0x8001_0000).contains(&count), CountHalf);
    for (place, seen) in [(2, CountFirst), (3, CountSecond)] {
        let mut repaired = archive.to_vec();
        repaired[place] = 0;
        tally.add_if(count > 0xFFFF && unpacked(&repaired).is_ok(), seen);
    }
    tally.add_if(faults.unknown.is_some(), KindsUnknown);
}

fn unknown_kinds(kinds: &[u8], bodies: &[u8], faults: &Faults, tally: &mut Tally) {
    use ArchiveSeen::*;
    let is_unknown = |kind: &u8| body(*kind).is_none();
    let unknown = kinds.iter().filter(|kind| is_unknown(kind)).count();
    if kinds.len() > 1 {
        tally.add_if(kinds.first().is_some_and(is_unknown), UnknownFirst);
        tally.add_if(unknown == 1 && kinds.last().is_some_and(is_unknown), UnknownLast);
        tally.add_if(unknown > 1, if unknown == kinds.len() { UnknownAll } else { UnknownSeveral });
    }
    tally.add_if(bodies.is_empty(), UnknownNone);
    tally.add_each(faults.length.map(|length| if length.is_lt() { UnknownShort } else { UnknownLong }));
    tally.add_if(faults.field.is_some(), UnknownField);
}

fn length(kinds: &[u8], bodies: &[u8], faults: &Faults, tally: &mut Tally) {
    use ArchiveSeen::*;
    const SHORTS: [ArchiveSeen; 9] = [Short1, Short2, Short3, Short4, Short5, Short6, Short7, Short8, Short9];
    const LONGS: [ArchiveSeen; 9] = [Long1, Long2, Long3, Long4, Long5, Long6, Long7, Long8, Long9];
    let due: usize = kinds.iter().filter_map(|&kind| body(kind)).sum();
    let Some(&highest) = kinds.iter().max() else { return tally.add(BodiesNoKinds) };
    let highest = usize::from(highest) - 1;
    tally.add_if(bodies.is_empty(), BodiesNone);
    let record = |octets| kinds.iter().any(|&kind| body(kind) == Some(octets));
    let seen = if bodies.len() < due {
        let less = due - bodies.len();
        tally.add_if(less == 1, SHORTS[highest]);
        tally.add_if(record(less), ShortRecord);
        tally.add_if(faults.field.is_some(), ShortField);
        if less == 1 {
            ShortOne
        } else {
            Short
        }
    } else {
        let more = bodies.len() - due;
        tally.add_if(more == 1, LONGS[highest]);
        tally.add_if(record(more), LongRecord);
        tally.add_if(faults.field.is_some(), LongField);
        if more == 1 {
            LongOne
        } else {
            Long
        }
    };
    tally.add(seen);
}

/// All records, of which the one at this place is the first bad one.
fn fields(list: &[Vec<u8>], place: usize, tally: &mut Tally) {
    use ArchiveSeen::*;
    let record = &list[place];
    let kind = record[0];
    field(kind, Work::Unpack, tally);
    tally.add_if(list.len() == 1, FieldAlone);
    let (front, behind) = (&list[..place], &list[place + 1..]);
    let later: Vec<&Vec<u8>> = behind.iter().filter(|record| !in_range(record)).collect();
    tally.add_if(!later.is_empty(), FieldSeveral);
    tally.add_if(later.iter().any(|other| other[0] < kind), FieldHigher);
    let has_reference = kind != 7;
    let column = later.iter().any(|other| other[0] == kind && !call(other));
    tally.add_if(has_reference && call(record) && column, FieldColumn);
    let same = |list: &[Vec<u8>]| list.iter().any(|other| other[0] == kind);
    tally.add_if(same(front) && same(behind), FieldMiddle);
}
