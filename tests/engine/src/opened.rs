//! Opens judged by the places of their octets alone, beside the engine: what they return, and the row
//! that they make.

use crate::board::{Aux, Board, Call, CallState, Number, Reference, Row, Standing};
use crate::notice::Moment;
use crate::notice_refused::taken;

/// An Open of full length returns and leaves what its octets and the rows say, and writes nothing.
pub fn stands(moment: &Moment) -> Result<(), String> {
    let (number_type, number) = match moment.record {
        [1, body @ ..] if body.len() == 24 => (0, &body[8..]),
        [9, body @ ..] if body.len() == 25 => (body[8], &body[9..]),
        _ => return Ok(()),
    };
    let mut due = moment.before.clone();
    let returned = opened(&mut due, moment.record, number_type, number);
    if (moment.returned, moment.written) != (returned, &[]) {
        return Err(format!("Open: has to return {returned} and to write nothing"));
    }
    if *moment.after != due {
        return Err("Open: the board is not as it has to be".to_string());
    }
    Ok(())
}

fn opened(board: &mut Board, record: &[u8], number_type: u8, number: &[u8]) -> u8 {
    let (direction, presentation) = (record[7], record[8]);
    let digit = |(place, &octet): (usize, &u8)| match place < number[0] as usize {
        true => (0x30..0x3A).contains(&octet),
        false => octet == 0,
    };
    let right = number[0] < 16 && number[1..].iter().enumerate().all(digit);
    let low = direction < 2 && presentation < 2 && number_type < 3;
    if !right || !low || (record[1] % 0x80, record[2]) == (0, 0) {
        return 5;
    }
    let empty = board.rows.iter().position(|row| row.standing == Standing::Empty);
    let place = match (taken(board, record), empty) {
        ((true, _, _), _) => return 6,
        ((_, true, _), _) => return 7,
        (_, None) => return 8,
        (_, Some(place)) => place,
    };
    let call = Call {
        reference: Reference(u16::from_be_bytes([record[1], record[2]])),
        direction,
        state: [CallState::Proceeding, CallState::Received][direction as usize],
        aux: Aux::Idle,
        link: None,
    };
    let mut octets = [0; 16];
    octets.copy_from_slice(number);
    board.rows[place] = Row {
        leg: u32::from_be_bytes([record[3], record[4], record[5], record[6]]),
        standing: Standing::Served(call),
        presentation,
        number_type,
        number: Number(octets),
    };
    0
}
