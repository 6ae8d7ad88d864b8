//! American transfers and Answers judged a second time, beside the engine: a component by the places
//! of its octets, whether two calls may be transferred by counting those that are held, answered and
//! alerting, what is written octet by octet, and the whole board.

use crate::board::{Board, Call, Reference, Row, Standing};
use crate::event::{ANSWER, FACILITY};
use crate::notice::Moment;

/// What an event has to write, and the board that it has to leave.
type Due = (Vec<u8>, Board);

/// An accepted Facility or Answer by American rules writes and leaves what is due, where that can
/// be said from its octets and the board.
pub fn stands(moment: &Moment) -> Result<(), String> {
    if moment.before.alerting < 2 || moment.returned != 0 {
        return Ok(());
    }
    let due = match moment.record[0] {
        FACILITY => facility(moment)?,
        ANSWER => Some(answer(moment)?),
        _ => None,
    };
    let Some((written, board)) = due else { return Ok(()) };
    if moment.written != written {
        let was = format!("{:02x?} was written", moment.written);
        return Err(format!("American: {was}, but {written:02x?} is due"));
    }
    if *moment.after != board {
        return Err("American: the board is not as it has to be".to_string());
    }
    Ok(())
}

/// What a component asks for.
#[derive(PartialEq, Eq, Debug)]
pub enum Wish {
    Execute,
    Link(i16),
    Request,
}

/// The identifier and what is asked for, of a component as a terminal writes it: by the places of its
/// octets, nothing behind the last element looked at.
pub fn wish(component: &[u8]) -> Option<(&[u8], Wish)> {
    let padded = |high: u8, low: u8| high as i8 as i16 == (low as i8 as i16) >> 7;
    let length = match *component {
        [0xA1, _, 2, 1, ..] => 3,
        [0xA1, _, 2, 2, high, low, ..] if !padded(high, low) => 4,
        _ => return None,
    };
    let (identifier, operation) = component[2..].split_at_checked(length)?;
    if component[1] as usize != length + operation.len() {
        return None;
    }
    let wish = match *operation {
        [2, 1, 6] => Wish::Execute,
        [6, 6, 4, 0, 0x82, 0x71, 1, 4] => Wish::Request,
        [6, 6, 4, 0, 0x82, 0x71, 1, 1, 2, 1, low] => Wish::Link(low as i8 as i16),
        [6, 6, 4, 0, 0x82, 0x71, 1, 1, 2, 2, high, low] if !padded(high, low) => {
            Wish::Link(i16::from_be_bytes([high, low]))
        }
        _ => return None,
    };
    Some((identifier, wish))
}

/// What is due for a Facility; none where neither its octets nor what was written says so.
fn facility(moment: &Moment) -> Result<Option<Due>, String> {
    let (board, record) = (moment.before, moment.record);
    let component = &record[4..4 + record[3] as usize];
    let named = place(board, |call| call.reference.0.to_be_bytes() == record[1..3]).ok_or("no call")?;
    let Some((identifier, wish)) = wish(component) else {
        return transferred_by_drops(moment, named);
    };
    let answer = |tag: u8, rest: &[u8]| {
        let component = [&[tag, (identifier.len() + rest.len()) as u8], identifier, rest].concat();
        let fill = vec![0; 32 - component.len()];
        [&[0x81, record[1], record[2], component.len() as u8], component.as_slice(), &fill].concat()
    };
    let left = |octets: Vec<u8>| Ok(Some((octets, board.clone())));
    match (wish, board.subscribed) {
        (Wish::Execute, _) => left(answer(0xA4, &[0x81, 1, 1])),
        (_, 0) => left(answer(0xA3, &[2, 1, 0])),
        (Wish::Request, _) => Ok(None),
        (Wish::Link(value), _) => match place(board, |call| call.link.is_some_and(|link| link.0 == value)) {
            None => left(answer(0xA3, &[6, 6, 4, 0, 0x82, 0x71, 1, 0x15])),
            Some(other) if !may_be_transferred(board, named, other) => left(answer(0xA3, &[2, 1, 7])),
            Some(other) => {
                let (rest, after) = transfer(board, named, other);
                Ok(Some(([answer(0xA2, &[]), rest].concat(), after)))
            }
        },
    }
}

/// A component with further elements: where more than a Reply was written, the two calls that the
/// Drops name have been transferred.
fn transferred_by_drops(moment: &Moment, named: usize) -> Result<Option<Due>, String> {
    let (reply, rest) = moment.written.split_at(moment.written.len().min(36));
    let (high, low) = match *rest {
        [] => return Ok(None),
        [0x83, _, _, 0x83, high, low, ..] => (high, low),
        _ => return Err("American: a Reply is followed by other than two Drops".to_string()),
    };
    let second = Reference(u16::from_be_bytes([high, low]));
    let other = place(moment.before, |call| call.reference == second)
        .filter(|&other| may_be_transferred(moment.before, named, other))
        .ok_or("American: calls were transferred that may not be")?;
    let (octets, after) = transfer(moment.before, named, other);
    Ok(Some(([reply, &octets].concat(), after)))
}

fn place(board: &Board, test: impl Fn(&Call) -> bool) -> Option<usize> {
    board.rows.iter().position(|row| row.call().is_some_and(&test))
}

/// Two calls, one of them answered and the other answered or, where that is allowed, alerting;
/// at most one held, and none of them on the way there or back.
pub fn may_be_transferred(board: &Board, named: usize, other: usize) -> bool {
    let calls = [named, other].map(|place| board.rows[place].call());
    let [Some(a), Some(b)] = calls else { return false };
    let count = |test: fn(&Call) -> bool| test(a) as u8 + test(b) as u8;
    let answered = count(|call| call.state as u8 == 10);
    let alerting = count(|call| (call.state as u8, call.direction) == (4, 0));
    let held = count(|call| call.aux as u8 == 2);
    let waiting = count(|call| call.aux as u8 % 2 == 1);
    let states = answered == 2 || (answered, alerting, board.alerting) == (1, 1, 3);
    named != other && states && held < 2 && waiting == 0
}

/// Drops and Tells of a transfer, and the board after it.
fn transfer(board: &Board, named: usize, other: usize) -> Due {
    let mut after = board.clone();
    let (mut drops, mut tells) = (Vec::new(), Vec::new());
    let alerts = |place: usize| board.rows[place].call().is_some_and(|call| call.state as u8 == 4);
    for (place, partner) in [(named, other), (other, named)] {
        let (row, about) = (&board.rows[place], &board.rows[partner]);
        let reference = row.call().map_or(0, |call| call.reference.0);
        drops.extend([0x83, (reference >> 8) as u8, reference as u8]);
        if alerts(partner) {
            tells.extend(tell(row.leg, 0xE9, None, 1));
        } else if !alerts(place) {
            tells.extend(tell(row.leg, 0xEA, Some(about), 1));
        }
        after.rows[place].standing = Standing::Joined { partner: about.leg, alerts: alerts(place) };
    }
    (drops.into_iter().chain(tells).collect(), after)
}

/// Two Tells, to the partner first, each with the other's number.
fn answer(moment: &Moment) -> Result<Due, String> {
    let board = moment.before;
    let row_at = |leg: &[u8]| {
        let taken = |row: &&Row| !matches!(row.standing, Standing::Empty);
        board.rows.iter().filter(taken).find(|row| row.leg.to_be_bytes() == leg)
    };
    let row = row_at(&moment.record[1..5]).ok_or("American: Answer of no leg")?;
    let Standing::Joined { partner, alerts: true } = row.standing else {
        return Err("American: Answer of a leg that does not alert".to_string());
    };
    let other = row_at(&partner.to_be_bytes()).ok_or("American: no partner")?;
    let mut after = board.clone();
    for changed in after.rows.iter_mut().filter(|changed| **changed == *row) {
        changed.standing = Standing::Joined { partner, alerts: false };
    }
    Ok(([tell(partner, 0xEA, Some(row), 0), tell(row.leg, 0xEA, Some(other), 0)].concat(), after))
}

/// A Tell by FACILITY, with the number of the row's party where there is a row.
fn tell(leg: u32, description: u8, about: Option<&Row>, request: u8) -> Vec<u8> {
    let row = about.unwrap_or(&Row::EMPTY);
    let mark = if row.number.0[0] == 0 { 0 } else { 1 + row.presentation };
    let kind = if mark == 1 && row.number_type > 0 { 0x86 } else { 0x82 };
    let mut octets = [&[kind], &leg.to_be_bytes()[..], &[0, description, mark, request]].concat();
    if kind == 0x86 {
        octets.push(row.number_type);
    }
    octets.extend(if mark == 1 { row.number.0 } else { [0; 16] });
    octets
}
