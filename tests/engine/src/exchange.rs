//! A log in which some records are exchanged with the ones behind them.

use crate::moving::records;

pub struct Exchange {
    pub log: Vec<u8>,
    /// The records that stand first of two, counted from 0, in their order; each record is of one two at most.
    pub places: Vec<usize>,
}

impl Exchange {
    pub fn records(&self) -> Vec<&[u8]> {
        records(&self.log[2..]).collect()
    }

    /// The log with these exchanged. What lies behind an unknown kind is no record, and stays.
    pub fn other(&self) -> Vec<u8> {
        let mut records = self.records();
        for &place in &self.places {
            records.swap(place, place + 1);
        }
        let mut other = [&self.log[..2], &records.concat()].concat();
        other.extend_from_slice(&self.log[other.len()..]);
        other
    }
}
