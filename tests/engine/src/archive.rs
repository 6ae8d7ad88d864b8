//! Archives of logs: like octets together, by kind and column, and the log given back.

use crate::event::{body_length, Answer, Event, OPEN, OPEN_TYPED};
use crate::moving::{records, Refusal};
use crate::play::start;

pub const LARGEST_LOG: usize = 65_536;
/// The octets that tell how many records there are: all that an archive has more than its log.
pub const COUNT: usize = 4;
pub const LARGEST_ARCHIVE: usize = LARGEST_LOG + COUNT;

#[derive(Clone, Copy, PartialEq, Eq, Debug)]
pub enum Work {
    Pack,
    Unpack,
}

impl Work {
    pub const BOTH: [Work; 2] = [Work::Pack, Work::Unpack];

    pub fn word(self) -> &'static str {
        match self {
            Work::Pack => "pack",
            Work::Unpack => "unpack",
        }
    }

    /// What comes out, or why nothing does.
    pub fn done(self, octets: &[u8]) -> Result<Vec<u8>, Refusal> {
        match self {
            Work::Pack => packed(octets),
            Work::Unpack => unpacked(octets),
        }
    }

    /// Into the front of the target. A refusal leaves the target as it was.
    pub fn into(self, octets: &[u8], target: &mut [u8]) -> Answer {
        let done = self.done(octets).map_err(|refusal| refusal.returned);
        match done.and_then(|done| Ok((target.get_mut(..done.len()).ok_or(1)?, done))) {
            Ok((front, done)) => {
                front.copy_from_slice(&done);
                Answer { returned: 0, written: done.len() }
            }
            Err(returned) => Answer { returned, written: 0 },
        }
    }
}

/// A refusal that names no record.
fn refused(returned: u8) -> Refusal {
    Refusal { returned, record: 0 }
}

/// The octets behind the options, where these are good and there are not too many octets.
fn behind_options(octets: &[u8], largest: usize) -> Result<&[u8], Refusal> {
    let (_, behind) = start(octets).filter(|_| octets.len() <= largest).ok_or(refused(5))?;
    Ok(behind)
}

/// The archive of a log.
pub fn packed(log: &[u8]) -> Result<Vec<u8>, Refusal> {
    let list: Vec<&[u8]> = records(behind_options(log, LARGEST_LOG)?).collect();
    for (record, number) in list.iter().zip(1..) {
        Event::read(record).map_err(|returned| Refusal { returned, record: number })?;
    }
    Ok(regrouped([log[0], log[1]], &list))
}

/// Options and records of full length as an archive has them, whatever their fields.
pub fn regrouped(options: [u8; 2], list: &[&[u8]]) -> Vec<u8> {
    let mut archive = options.to_vec();
    archive.extend((list.len() as u32).to_be_bytes());
    archive.extend(list.iter().map(|record| record[0]));
    for kind in OPEN..=OPEN_TYPED {
        let of_kind: Vec<&[u8]> = list.iter().copied().filter(|record| record[0] == kind).collect();
        for column in 1..=body_length(kind).unwrap_or(0) {
            archive.extend(of_kind.iter().map(|record| record[column]));
        }
    }
    archive
}

/// The log of an archive.
pub fn unpacked(archive: &[u8]) -> Result<Vec<u8>, Refusal> {
    let behind = behind_options(archive, LARGEST_ARCHIVE)?;
    let (kinds, bodies) = counted(behind).ok_or(refused(3))?;
    let mut length = 0;
    for (&kind, number) in kinds.iter().zip(1..) {
        length += body_length(kind).ok_or(Refusal { returned: 4, record: number })?;
    }
    if bodies.len() != length {
        return Err(refused(3));
    }
    let list = undone(kinds, bodies);
    for (record, number) in list.iter().zip(1..) {
        Event::read(record).map_err(|returned| Refusal { returned, record: number })?;
    }
    Ok([&archive[..2], &list.concat()].concat())
}

/// The kinds, as many as the count says, and what stands behind them. The count is compared and never
/// reckoned with: it may be any number of 32 bits.
fn counted(behind: &[u8]) -> Option<(&[u8], &[u8])> {
    let (&count, behind) = behind.split_first_chunk::<COUNT>()?;
    behind.split_at_checked(usize::try_from(u32::from_be_bytes(count)).ok()?)
}

/// The records of known kinds whose bodies have just these octets.
fn undone(kinds: &[u8], bodies: &[u8]) -> Vec<Vec<u8>> {
    let mut list: Vec<Vec<u8>> = kinds.iter().map(|&kind| vec![kind]).collect();
    let mut octets = bodies.iter();
    for kind in OPEN..=OPEN_TYPED {
        let mut of_kind: Vec<&mut Vec<u8>> = list.iter_mut().filter(|record| record[0] == kind).collect();
        for _ in 0..body_length(kind).unwrap_or(0) {
            of_kind.iter_mut().for_each(|record| record.extend(octets.next()));
        }
    }
    list
}
