//! The player: a log in, the text out.

use crate::board::Board;
use crate::event::{body_length, event, event_on_sound, Answer};
use crate::opening;
use crate::reply::BUFFER;
use crate::rows::{board_sound, count};

/// Two lower-case hex digits for each octet value.
const HEX: [[u8; 2]; 256] = {
    let digits = b"0123456789abcdef";
    let mut table = [[0; 2]; 256];
    let mut octet = 0;
    while octet < 256 {
        table[octet] = [digits[octet >> 4], digits[octet & 15]];
        octet += 1;
    }
    table
};

/// The fresh board and the records after the options; none where the options are bad.
pub fn start(log: &[u8]) -> Option<(Board, &[u8])> {
    let &[subscribed, alerting, ref records @ ..] = log else { return None };
    match opening::old_log(subscribed, alerting) {
        (0, board) => Some((board, records)),
        _ => None,
    }
}

/// Splits off the next record. A cut record or one of unknown kind is the last: nothing
/// is left after it.
pub fn next_record(rest: &[u8]) -> Option<(&[u8], &[u8])> {
    let kind = *rest.first()?;
    match body_length(kind) {
        None => Some((&rest[..1], &[])),
        Some(length) if rest.len() <= length => Some((rest, &[])),
        Some(length) => Some(rest.split_at(1 + length)),
    }
}

/// Plays a whole log; gives the number of events.
pub fn play(log: &[u8], text: &mut Vec<u8>) -> u64 {
    play_by(log, text, event)
}

/// The same text, the board tested once for the log: an event keeps it sound.
pub fn play_tested_once(log: &[u8], text: &mut Vec<u8>) -> u64 {
    let mut known = None;
    play_by(log, text, |board, record, buffer| {
        if *known.get_or_insert_with(|| board_sound(board)) {
            event_on_sound(board, record, buffer)
        } else {
            event(board, record, buffer)
        }
    })
}

/// The same with any step.
#[inline]
pub fn play_by(
    log: &[u8],
    text: &mut Vec<u8>,
    mut step: impl FnMut(&mut Board, &[u8], &mut [u8]) -> Answer,
) -> u64 {
    let Some((mut board, mut rest)) = start(log) else {
        text.extend_from_slice(b"bad options\n");
        return 0;
    };
    text.extend_from_slice(b"ect 1\n");
    let mut number = 0;
    while let Some((record, after)) = next_record(rest) {
        number += 1;
        let mut buffer = [0; BUFFER];
        let answer = step(&mut board, record, &mut buffer);
        write_line(text, number, record[0], answer.returned, &buffer[..answer.written]);
        rest = after;
    }
    write_end(text, &board);
    number
}

fn write_line(text: &mut Vec<u8>, number: u64, kind: u8, returned: u8, octets: &[u8]) {
    write_decimal(text, number, b' ');
    write_decimal(text, kind as u64, b' ');
    write_decimal(text, returned as u64, b' ');
    if octets.is_empty() {
        text.push(b'-');
    }
    let mut hex = [0; 2 * BUFFER];
    for (pair, &octet) in hex.chunks_exact_mut(2).zip(octets) {
        pair.copy_from_slice(&HEX[octet as usize]);
    }
    text.extend_from_slice(&hex[..2 * octets.len()]);
    text.push(b'\n');
}

fn write_end(text: &mut Vec<u8>, board: &Board) {
    let (_, counts) = count(&board.rows);
    text.extend_from_slice(b"end ");
    write_decimal(text, counts.legs as u64, b' ');
    write_decimal(text, counts.pairs as u64, b' ');
    write_decimal(text, counts.links as u64, b'\n');
}

fn write_decimal(text: &mut Vec<u8>, mut value: u64, after: u8) {
    let mut digits = [0; 21];
    digits[20] = after;
    let mut first = 20;
    loop {
        first -= 1;
        digits[first] = b'0' + (value % 10) as u8;
        value /= 10;
        if value == 0 {
            break;
        }
    }
    text.extend_from_slice(&digits[first..]);
}
