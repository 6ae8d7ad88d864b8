//! What a Progress or a Hold comes to by the octets and the rows alone, judged beside the engine.

use crate::board::{Aux, Board, Call, CallState, Reference, Standing};
use crate::event::{HOLD, PROGRESS};

const CALL_STATES: [(u8, u8); 4] = [(3, 4), (3, 10), (4, 10), (7, 10)];
const AUXILIARY: [(u8, u8); 6] = [(0, 1), (1, 2), (1, 0), (2, 3), (3, 0), (3, 2)];

/// All there are on a reference.
pub fn events(reference: Reference) -> [[u8; 4]; 6] {
    let [high, low] = reference.0.to_be_bytes();
    [(PROGRESS, 4), (PROGRESS, 10), (HOLD, 0), (HOLD, 1), (HOLD, 2), (HOLD, 3)]
        .map(|(kind, value)| [kind, high, low, value])
}

/// The reference of a Progress or a Hold that checks 3 to 5 let pass.
pub fn reference(record: &[u8]) -> Option<Reference> {
    let octets = match *record {
        [2, high, low, 4 | 10] | [3, high, low, 0..=3] => [high, low],
        _ => return None,
    };
    let number = u16::from_be_bytes(octets);
    (number % 0x8000 != 0).then_some(Reference(number))
}

/// Whether two records are such events of different references.
pub fn unrelated(first: &[u8], second: &[u8]) -> bool {
    matches!((reference(first), reference(second)), (Some(one), Some(other)) if one != other)
}

pub fn permitted(call: &Call, record: &[u8]) -> bool {
    let (state, aux) = (call.state as u8, call.aux as u8);
    if record[0] == PROGRESS {
        CALL_STATES.contains(&(state, record[3]))
    } else {
        [4, 10].contains(&state) && AUXILIARY.contains(&(aux, record[3]))
    }
}

/// Does to a call what a permitted event does.
pub fn step(call: &mut Call, record: &[u8]) {
    match (record[0], record[3]) {
        (PROGRESS, 4) => call.state = CallState::Delivered,
        (PROGRESS, _) => call.state = CallState::Active,
        (_, aux) => call.aux = [Aux::Idle, Aux::HoldRequest, Aux::Held, Aux::RetrieveRequest][aux as usize],
    }
}

/// What such an event returns, and the board that it leaves.
fn due(before: &Board, record: &[u8], reference: Reference) -> (u8, Board) {
    let mut after = before.clone();
    let place = after.rows.iter().position(|row| row.call().is_some_and(|call| call.reference == reference));
    let Some(place) = place else { return (9, after) };
    let Standing::Served(call) = &mut after.rows[place].standing else { return (9, after) };
    if !permitted(call, record) {
        return (11, after);
    }
    step(call, record);
    (0, after)
}

/// Number, octets and the whole board are as they have to be; other records are not judged here.
pub fn stands(before: &Board, record: &[u8], (returned, written, after): (u8, &[u8], &Board)) -> bool {
    let Some(reference) = reference(record) else { return true };
    let (number, board) = due(before, record, reference);
    (returned, written, after) == (number, [].as_slice(), &board)
}
