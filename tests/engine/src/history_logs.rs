//! Logs that are played whatever the seed: each short history, and each that an event is refused behind.

use crate::histories::{list, records, History, LONGEST, OPTIONS};

pub fn logs() -> Vec<Vec<u8>> {
    let list = list();
    let mut all = list.clone();
    for history in list.iter().filter(|history| history.length < LONGEST) {
        all.extend((0..6).map(|number| history.with(number)).filter(|longer| !list.contains(longer)));
    }
    all.iter().map(log).collect()
}

fn log(history: &History) -> Vec<u8> {
    let records = records();
    let octets = history.numbers().iter().flat_map(|&number| &records[number as usize]);
    OPTIONS.iter().chain(octets).copied().collect()
}
