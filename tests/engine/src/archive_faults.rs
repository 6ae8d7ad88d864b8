//! The faults of a log that is to be packed and of an archive, judged beside the engine: by places and by
//! lengths of their own.

use std::cmp::Ordering;

use crate::archive_places::{body, records, KINDS_AT, LONGEST};
use crate::fields::in_range;
use crate::moving::Refusal;

pub fn bad_options(octets: &[u8]) -> bool {
    !matches!(octets, [0..=2, 0..=3, ..])
}

/// The first fault of a log.
pub fn of_log(log: &[u8]) -> Option<Refusal> {
    if log.len() > 1 << 16 || bad_options(log) {
        return Some(Refusal { returned: 5, record: 0 });
    }
    first_bad(&log[2..]).map(|(returned, record)| Refusal { returned, record })
}

/// What the first bad record behind the options is bad by, and its number.
pub fn first_bad(mut rest: &[u8]) -> Option<(u8, u64)> {
    let mut number = 0;
    while let Some(&kind) = rest.first() {
        number += 1;
        let Some(body) = body(kind) else { return Some((4, number)) };
        let Some((record, behind)) = rest.split_at_checked(1 + body) else { return Some((3, number)) };
        if !in_range(record) {
            return Some((5, number));
        }
        rest = behind;
    }
    None
}

/// Each fault of an archive by itself, whatever others it has.
#[derive(Default)]
pub struct Faults {
    pub large: bool,
    pub options: bool,
    pub count_cut: bool,
    pub kinds_cut: bool,
    /// The number of the first unknown kind among those that are there.
    pub unknown: Option<u64>,
    /// Beside unknown kinds, only what is wrong whatever bodies they might have.
    pub length: Option<Ordering>,
    /// The first of the records of known kinds that are there in full and have a wrong field.
    pub field: Option<u64>,
}

impl Faults {
    pub fn of(archive: &[u8]) -> Faults {
        let front =
            Faults { large: archive.len() > 65_540, options: bad_options(archive), ..Faults::default() };
        let Some(behind) = archive.get(KINDS_AT..) else { return Faults { count_cut: true, ..front } };
        let count = archive[2..KINDS_AT].iter().fold(0, |count, &octet| 256 * count + u64::from(octet));
        let kinds_cut = count > behind.len() as u64;
        let kinds = if kinds_cut { behind } else { &behind[..count as usize] };
        let unknown = kinds.iter().zip(1..).find(|(&kind, _)| body(kind).is_none());
        let faults = Faults { kinds_cut, unknown: unknown.map(|(_, number)| number), ..front };
        if kinds_cut {
            return faults;
        }
        let known: Vec<u8> = kinds.iter().copied().filter(|&kind| body(kind).is_some()).collect();
        let there = behind.len() - kinds.len();
        let kinds_at = KINDS_AT + kinds.len() - known.len();
        let bad = records(archive, &known, kinds_at);
        let bad = bad.iter().zip(1..).find(|(record, _)| record.as_ref().is_some_and(|all| !in_range(all)));
        let field = bad.map(|(_, number)| number);
        Faults { length: length(&known, kinds.len() - known.len(), there), field, ..faults }
    }

    /// The one that decides.
    pub fn first(&self) -> Option<Refusal> {
        let (returned, record) = match *self {
            Faults { large: true, .. } | Faults { options: true, .. } => (5, 0),
            Faults { count_cut: true, .. } | Faults { kinds_cut: true, .. } => (3, 0),
            Faults { unknown: Some(number), .. } => (4, number),
            Faults { length: Some(_), .. } => (3, 0),
            Faults { field: Some(number), .. } => (5, number),
            _ => return None,
        };
        Some(Refusal { returned, record })
    }
}

/// How so many octets differ from those of the bodies.
fn length(known: &[u8], unknown: usize, there: usize) -> Option<Ordering> {
    let least: usize = known.iter().filter_map(|&kind| body(kind)).sum();
    if there < least {
        Some(Ordering::Less)
    } else if there > least + LONGEST * unknown {
        Some(Ordering::Greater)
    } else {
        None
    }
}
