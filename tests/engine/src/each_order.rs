//! Logs that any seed has: two events on calls in each two situations, or of no calls, and each two on one reference.

use crate::board::{Reference, INCOMING, OUTGOING};
use crate::exchange::Exchange;
use crate::records::{hold, open, progress};
use crate::stepped::events;

const REFERENCES: [(u16, u16); 4] = [(1, 2), (1, 0x8001), (0xFFFF, 0x7FFF), (0x0102, 0x0201)];

/// The records that bring a new call into each situation; none at first, for a reference without a call.
fn situations(reference: u16, leg: u32) -> Vec<Vec<u8>> {
    let reference = Reference(reference);
    let (outgoing, incoming) =
        (open(reference, leg, OUTGOING, 0, b"21"), open(reference, leg, INCOMING, 0, b"34"));
    let mut situations = vec![Vec::new(), outgoing.clone(), incoming.clone()];
    for (open, state) in [(&outgoing, 4), (&incoming, 10)] {
        let mut records = [open.clone(), progress(reference, state)].concat();
        situations.push(records.clone());
        for aux in 1..=3 {
            records.extend(hold(reference, aux));
            situations.push(records.clone());
        }
    }
    situations
}

/// The records in front of the two, with each two of different references.
fn apart((first, second): (u16, u16)) -> Vec<(Vec<u8>, [[u8; 4]; 2])> {
    let mut all = Vec::new();
    for one in situations(first, 1) {
        for other in situations(second, 2) {
            for event in events(Reference(first)) {
                let front = [&one[..], &other].concat();
                all.extend(events(Reference(second)).map(|beside| (front.clone(), [event, beside])));
            }
        }
    }
    all
}

fn on_one(reference: u16) -> Vec<(Vec<u8>, [[u8; 4]; 2])> {
    let mut all = Vec::new();
    for front in situations(reference, 1) {
        for event in events(Reference(reference)) {
            all.extend(events(Reference(reference)).map(|beside| (front.clone(), [event, beside])));
        }
    }
    all
}

/// With options that differ from log to log. The last two records are exchanged.
fn exchanges(all: Vec<(Vec<u8>, [[u8; 4]; 2])>) -> Vec<Exchange> {
    let exchange = |(number, (front, two)): (usize, (Vec<u8>, [[u8; 4]; 2]))| {
        let options = [(number / 7 % 3) as u8, (number / 21 % 4) as u8];
        let log = [&options[..], &front, &two.concat()].concat();
        let place = Exchange { log: log.clone(), places: Vec::new() }.records().len() - 2;
        Exchange { log, places: vec![place] }
    };
    all.into_iter().enumerate().map(exchange).collect()
}

/// Each two situations with each two events, the references differing from one to the next.
pub fn unrelated() -> Vec<Exchange> {
    let lists = REFERENCES.map(apart);
    let some = (0..lists[0].len()).map(|number| lists[number % 4][number].clone());
    exchanges(some.collect())
}

pub fn related() -> Vec<Exchange> {
    exchanges(on_one(1))
}
