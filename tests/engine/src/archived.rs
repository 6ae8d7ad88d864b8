//! What holds of every log that is packed and every archive that is unpacked: judged by counting its octets
//! by value and by their places, beside the engine, which goes by records and columns.

use crate::archive::{packed, regrouped, unpacked, Work};
use crate::archive_faults::{first_bad, of_log, Faults};
use crate::archive_orders;
use crate::archive_places::{places, records as by_places, KINDS_AT};
use crate::event::{Answer, Event};
use crate::moving::{records, Refusal};
use crate::play::start;
use crate::rng::Rng;
use crate::seen_archive::RefusedSeen;
use crate::seen_layout::LayoutSeen;
use crate::tally::Tally;
use crate::{notice_archive, notice_archive_refused, notice_log_refused};

const UNTOUCHED: u8 = 0x5A;

/// Packs a log or unpacks an archive and tallies it; says what is at fault.
pub fn watch(octets: &[u8], work: Work, rng: &mut Rng, tally: &mut Tally) -> Result<(), String> {
    let fault = |what| format!("{}: {what}", work.word());
    watched(octets, work, rng, tally).map_err(fault)
}

fn watched(octets: &[u8], work: Work, rng: &mut Rng, tally: &mut Tally) -> Result<(), String> {
    let faults = if work == Work::Unpack { Faults::of(octets) } else { Faults::default() };
    let due = if work == Work::Unpack { faults.first() } else { of_log(octets) };
    match (work.done(octets), due) {
        (Ok(done), None) => {
            into_targets(octets, work, &done, rng, tally)?;
            let (log, archive) = if work == Work::Pack { (octets, &done[..]) } else { (&done[..], octets) };
            whole(log, archive)?;
            notice_archive::layout(log, archive, work, tally);
        }
        (Err(refused), Some(due)) if refused == due => {
            refused_into(octets, work, due, tally)?;
            if work == Work::Pack {
                notice_log_refused::notice(octets, due, tally);
            } else {
                same_field(octets, due)?;
                notice_archive_refused::notice(octets, &faults, due, tally);
            }
        }
        (done, _) => return Err(format!("{done:02x?} where its octets say {due:?}")),
    }
    Ok(())
}

/// The log's good records alone, where it has options.
pub fn without_bad(log: &[u8]) -> Option<Vec<u8>> {
    let (_, rest) = start(log)?;
    let good = records(rest).filter(|record| Event::read(record).is_ok());
    Some([&log[..2]].into_iter().chain(good).flatten().copied().collect())
}

fn into_targets(
    octets: &[u8],
    work: Work,
    done: &[u8],
    rng: &mut Rng,
    tally: &mut Tally,
) -> Result<(), String> {
    use LayoutSeen::{AsGiven, Exact, Larger, Short, ShortNone, ShortOptions};
    let length = done.len();
    let (all, short) = (Answer { returned: 0, written: length }, Answer { returned: 1, written: 0 });
    for less in [0, 2, length - 1, rng.below(length)] {
        into(octets, work, less, if less < length { short } else { all })?;
    }
    for enough in [length, length + rng.within(1, 40)] {
        if into(octets, work, enough, all)?[..length] != *done {
            return Err("another target gets other octets".to_string());
        }
    }
    into(octets, work, octets.len(), if octets.len() < length { short } else { all })?;
    tally.add_each([Exact, Larger, Short, ShortNone, AsGiven].map(|seen| (work, seen)));
    tally.add_if(length > 3, (work, ShortOptions));
    Ok(())
}

/// A refusal comes before the length of the target.
fn refused_into(octets: &[u8], work: Work, refusal: Refusal, tally: &mut Tally) -> Result<(), String> {
    use RefusedSeen::{Target3, Target4, Target5, TargetOptions};
    let refused = Answer { returned: refusal.returned, written: 0 };
    for length in [0, octets.len() / 2, 2 * octets.len() + 8] {
        into(octets, work, length, refused)?;
    }
    let seen = match refusal {
        Refusal { returned: 3, .. } => Target3,
        Refusal { returned: 4, .. } => Target4,
        Refusal { record: 0, .. } => TargetOptions,
        _ => Target5,
    };
    tally.add((work, seen));
    Ok(())
}

/// Into a target of so many octets; gives what it then has.
fn into(octets: &[u8], work: Work, length: usize, expected: Answer) -> Result<Vec<u8>, String> {
    let mut target = vec![UNTOUCHED; length];
    let answer = work.into(octets, &mut target);
    if answer != expected {
        return Err(format!("{answer:?} into {length} octets, where {expected:?} is due"));
    }
    if target[answer.written..].iter().any(|&octet| octet != UNTOUCHED) {
        return Err("octets were written that are not counted".to_string());
    }
    Ok(target)
}

/// A log and its archive, whichever was made of the other.
fn whole(log: &[u8], archive: &[u8]) -> Result<(), String> {
    if packed(log).as_deref() != Ok(archive) || unpacked(archive).as_deref() != Ok(log) {
        return Err("it does not come back as it was".to_string());
    }
    let list: Vec<&[u8]> = records(&log[2..]).collect();
    if archive.len() != log.len() + 4 || archive[2..KINDS_AT] != (list.len() as u32).to_be_bytes() {
        return Err("the archive has not four octets more, those of the count".to_string());
    }
    let without_count = [&archive[..2], &archive[KINDS_AT..]].concat();
    if by_value(&without_count) != by_value(log) {
        return Err("the octets are not those of the log".to_string());
    }
    if archive[KINDS_AT + list.len()..] != archive_orders::right(&list) {
        return Err("the bodies are not in the order of kind, column and record".to_string());
    }
    in_places(log, archive, &list)
}

/// How often there is each value.
fn by_value(octets: &[u8]) -> [usize; 256] {
    let mut counts = [0; 256];
    octets.iter().for_each(|&octet| counts[usize::from(octet)] += 1);
    counts
}

/// Each octet of the log stands at its place in the archive, and no two at one.
fn in_places(log: &[u8], archive: &[u8], list: &[&[u8]]) -> Result<(), String> {
    let kinds: Vec<u8> = list.iter().map(|record| record[0]).collect();
    let places = places(&kinds);
    if places.len() != log.len() {
        return Err("the records have not the lengths of their kinds".to_string());
    }
    let mut taken = vec![false; archive.len()];
    for (octet, place) in log.iter().zip(places) {
        if archive.get(place) != Some(octet) || std::mem::replace(&mut taken[place], true) {
            return Err(format!("octet {place} of the archive is not that of the log"));
        }
    }
    Ok(())
}

/// An archive that is not unpacked for a field alone: the log of its records is not packed for the same,
/// and its records give it.
fn same_field(archive: &[u8], refusal: Refusal) -> Result<(), String> {
    if refusal.returned != 5 || refusal.record == 0 {
        return Ok(());
    }
    let count = u32::from_be_bytes([archive[2], archive[3], archive[4], archive[5]]) as usize;
    let kinds = &archive[KINDS_AT..KINDS_AT + count];
    let list: Vec<Vec<u8>> = by_places(archive, kinds, KINDS_AT).into_iter().flatten().collect();
    let log = [&archive[..2], &list.concat()].concat();
    let slices: Vec<&[u8]> = list.iter().map(Vec::as_slice).collect();
    if packed(&log) != Err(refusal) || first_bad(&log[2..]) != Some((5, refusal.record)) {
        return Err(format!("{refusal:?}, and its log another"));
    }
    if regrouped([archive[0], archive[1]], &slices) != archive {
        return Err("its records do not give it".to_string());
    }
    Ok(())
}
