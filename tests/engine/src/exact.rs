//! Logs of just so many octets, and such with a bad record at their end.

use crate::archived::without_bad;
use crate::board::Reference;
use crate::logs::steered;
use crate::moving::records;
use crate::records as make;
use crate::rng::Rng;

/// The first records of a log and fitting ones behind them, so that it has so many octets.
pub fn exactly(log: &[u8], length: usize) -> Vec<u8> {
    let mut exact = log[..2].to_vec();
    for record in records(&log[2..]) {
        // Room for at least three records of five octets and one of four, which fill any gap.
        if exact.len() + record.len() + 19 > length {
            break;
        }
        exact.extend(record);
    }
    while !(length - exact.len()).is_multiple_of(4) {
        exact.extend(make::release(1));
    }
    while exact.len() < length {
        exact.extend(make::progress(Reference(1), 4));
    }
    exact
}

/// The log with the last octet of its last record, a call state, out of range.
pub fn last_bad(log: &[u8]) -> Vec<u8> {
    let mut log = log.to_vec();
    log.extend(make::progress(Reference(1), 9));
    log
}

/// The good records of several logs, so that it has at least so many octets.
pub fn long(rng: &mut Rng, least: usize) -> Vec<u8> {
    let mut long = vec![rng.below(3) as u8, rng.below(4) as u8];
    while long.len() < least {
        let good = without_bad(&steered(rng)).unwrap_or_default();
        long.extend(good.iter().skip(2));
    }
    long
}
