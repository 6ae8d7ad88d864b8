//! What occurs where a log is not packed.

use crate::archive::{Work, LARGEST_LOG};
use crate::archive_faults::{bad_options, first_bad};
use crate::archive_places::body;
use crate::event::Event;
use crate::moving::{records, Refusal};
use crate::notice_cut;
use crate::notice_refusal::{field, numbers, options_or_size, unknown};
use crate::seen_archive::LogSeen;
use crate::seen_bad::by_cut;
use crate::tally::Tally;

pub fn notice(log: &[u8], refusal: Refusal, tally: &mut Tally) {
    use LogSeen::*;
    if refusal.record == 0 {
        let larger = options_or_size(log, LARGEST_LOG, Work::Pack, tally);
        if larger && bad_options(log) {
            return;
        }
        let bad = first_bad(log.get(2..).unwrap_or(&[]));
        let pairs = if larger { [Larger3, Larger4, Larger5] } else { [Options3, Options4, Options5] };
        return tally.add_each(bad.map(|(returned, _)| pairs[usize::from(returned) - 3]));
    }
    let list: Vec<&[u8]> = records(&log[2..]).collect();
    let place = refusal.record as usize - 1;
    numbers(refusal.record, list.len(), Work::Pack, tally);
    let behind = &list[place + 1..];
    match refusal.returned {
        3 => {
            let record = list[place];
            tally.add(notice_cut::place(record, body(record[0]), by_cut!(LogSeen)));
            tally.add_if(notice_cut::wrong_field(record), CutField);
        }
        4 => {
            let end = 2 + list.iter().map(|record| record.len()).sum::<usize>();
            unknown(list[place][0], Work::Pack, tally);
            tally.add_if(end == log.len(), KindLast);
            if let Some(next) = records(&log[end..]).next() {
                tally.add(if Event::read(next).is_ok() { KindRecord } else { KindBad });
            }
        }
        _ => {
            field(list[place][0], Work::Pack, tally);
            for (bad, seen) in [(3, FieldBefore3), (4, FieldBefore4), (5, FieldBefore5)] {
                tally.add_if(behind.iter().any(|record| Event::read(record) == Err(bad)), seen);
            }
        }
    }
    tally.add_if(refusal.returned == 3 && log.len() == 3, Three3);
    tally.add_if(refusal.returned == 4 && log.len() == 3, Three4);
}
