//! Soundness of a whole board in one pass, and the lookups that pass leaves behind.

use crate::board::{Board, Call, LinkId, Reference, Row, Standing, MAX_LIVE, ROWS};
use crate::{rules, subscription};

/// Hash tables from leg and from reference to place. A slot holds place + 1, 0 is free.
/// 256 slots for at most 64 rows: short probes, and a `u8` slot number needs no bound check.
pub struct Index {
    legs: [u8; 256],
    references: [u8; 256],
    taken: u64,
    live: usize,
}

/// The live LinkIds met so far. Values given one after another differ in their low six
/// bits, so one bit for each of these mostly tells at once that a value is new.
struct Links {
    values: [LinkId; MAX_LIVE],
    low_bits: u64,
}

impl Links {
    fn add(&mut self, link: LinkId, used: usize) -> bool {
        let bit = 1u64 << (link.0 as u16 & 63);
        if used == MAX_LIVE || (self.low_bits & bit != 0 && self.values[..used].contains(&link)) {
            return false;
        }
        self.low_bits |= bit;
        self.values[used] = link;
        true
    }
}

fn slot_of(key: u32) -> u8 {
    (key.wrapping_mul(0x9E37_79B1) >> 24) as u8
}

impl Index {
    pub fn empty() -> Index {
        Index { legs: [0; 256], references: [0; 256], taken: 0, live: 0 }
    }

    /// Fills an empty index; false if the board is not sound. It is filled in place, since
    /// moving half a kilobyte at each event would cost as much as a few rows.
    #[inline]
    pub fn fill(&mut self, board: &Board) -> bool {
        self.gather(board).is_some_and(|joined| self.partners_agree(&board.rows, joined))
    }

    /// Checks each row by itself and all keys for being distinct; gives the joined rows.
    #[inline]
    fn gather(&mut self, board: &Board) -> Option<u64> {
        if board.subscribed > subscription::HIGHEST || board.alerting > rules::HIGHEST {
            return None;
        }
        let mut links = Links { values: [LinkId(0); MAX_LIVE], low_bits: 0 };
        let mut joined = 0;
        for (place, row) in board.rows.iter().enumerate() {
            if matches!(row.standing, Standing::Empty) {
                if !row.blank() {
                    return None;
                }
                continue;
            }
            if !row.party_sound() || !self.add_leg(&board.rows, place) {
                return None;
            }
            self.taken |= 1 << place;
            match &row.standing {
                Standing::Served(call) if self.add_call(&board.rows, place, call, &mut links) => {}
                Standing::Joined { .. } => joined |= 1 << place,
                _ => return None,
            }
        }
        Some(joined)
    }

    #[inline]
    fn add_leg(&mut self, rows: &[Row; ROWS], place: usize) -> bool {
        let leg = rows[place].leg;
        let mut slot = slot_of(leg);
        while let Some(other) = seat(&self.legs, slot) {
            if rows[other].leg == leg {
                return false;
            }
            slot = slot.wrapping_add(1);
        }
        self.legs[slot as usize] = place as u8 + 1;
        true
    }

    #[inline]
    fn add_call(&mut self, rows: &[Row; ROWS], place: usize, call: &Call, links: &mut Links) -> bool {
        let mut slot = slot_of(call.reference.0 as u32);
        while let Some(other) = seat(&self.references, slot) {
            if has_reference(&rows[other], call.reference) {
                return false;
            }
            slot = slot.wrapping_add(1);
        }
        self.references[slot as usize] = place as u8 + 1;
        if let Some(link) = call.link {
            if !links.add(link, self.live) {
                return false;
            }
            self.live += 1;
        }
        call.sound()
    }

    /// Each joined row's partner is another row joined to it, not both alerting.
    #[inline]
    fn partners_agree(&self, rows: &[Row; ROWS], mut joined: u64) -> bool {
        while joined != 0 {
            let row = &rows[joined.trailing_zeros() as usize % ROWS];
            joined &= joined - 1;
            let Standing::Joined { partner, alerts } = row.standing else { return false };
            let Some(other) = self.leg(rows, partner) else { return false };
            let Standing::Joined { partner: back, alerts: too } = rows[other].standing else {
                return false;
            };
            if partner == row.leg || back != row.leg || (alerts && too) {
                return false;
            }
        }
        true
    }

    /// The place of a leg.
    #[inline]
    pub fn leg(&self, rows: &[Row; ROWS], leg: u32) -> Option<usize> {
        let mut slot = slot_of(leg);
        loop {
            let place = seat(&self.legs, slot)?;
            if rows[place].leg == leg {
                return Some(place);
            }
            slot = slot.wrapping_add(1);
        }
    }

    /// The place of the call with a reference.
    #[inline]
    pub fn reference(&self, rows: &[Row; ROWS], reference: Reference) -> Option<usize> {
        let mut slot = slot_of(reference.0 as u32);
        loop {
            let place = seat(&self.references, slot)?;
            if has_reference(&rows[place], reference) {
                return Some(place);
            }
            slot = slot.wrapping_add(1);
        }
    }

    /// The lowest empty row.
    pub fn lowest_empty(&self) -> Option<usize> {
        let place = (!self.taken).trailing_zeros() as usize;
        (place < ROWS).then_some(place)
    }

    /// How many LinkIds are live.
    pub fn live(&self) -> usize {
        self.live
    }
}

#[inline]
fn seat(table: &[u8; 256], slot: u8) -> Option<usize> {
    match table[slot as usize] {
        0 => None,
        // The remainder changes nothing; it tells the compiler that the place is in range.
        place => Some((place as usize - 1) % ROWS),
    }
}

#[inline]
fn has_reference(row: &Row, reference: Reference) -> bool {
    matches!(&row.standing, Standing::Served(call) if call.reference == reference)
}
