//! Lookup and counts over lent rows, however many. Written plainly, without the index,
//! so that the tests can hold the index against it.

use crate::board::{Board, Counts, Reference, Row, Standing, MAX_LIVE};

/// 0 and the lowest place with a call of that reference, else 9 and 0.
pub fn lookup(rows: &[Row], reference: Reference) -> (u8, usize) {
    let found = rows.iter().position(|row| row.call().is_some_and(|call| call.reference == reference));
    found.map_or((9, 0), |place| (0, place))
}

/// 0 and the counts, or 2 and zeros where the rows are not sound.
pub fn count(rows: &[Row]) -> (u8, Counts) {
    if !sound(rows) {
        return (2, Counts::default());
    }
    let taken = rows.iter().filter(|row| row.standing != Standing::Empty);
    let joined = rows.iter().filter(|row| matches!(row.standing, Standing::Joined { .. }));
    let counts = Counts { legs: taken.count(), pairs: joined.count() / 2, links: live(rows) };
    (0, counts)
}

/// Soundness of a whole board by the plain rule.
pub fn board_sound(board: &Board) -> bool {
    matches!((board.subscribed, board.alerting), (0..=2, 0..=3)) && sound(&board.rows)
}

pub fn sound(rows: &[Row]) -> bool {
    let all =
        |test: &dyn Fn(usize, &Row) -> bool| rows.iter().enumerate().all(|(place, row)| test(place, row));
    all(&|_, row| fields_sound(row))
        && all(&|place, row| rows[place + 1..].iter().all(|other| apart(row, other)))
        && live(rows) <= MAX_LIVE
        && all(&|place, row| partner_agrees(rows, place, row))
}

fn fields_sound(row: &Row) -> bool {
    match row.standing {
        Standing::Empty => *row == Row::EMPTY,
        Standing::Served(call) => party_sound(row) && call.sound(),
        Standing::Joined { .. } => party_sound(row),
    }
}

fn party_sound(row: &Row) -> bool {
    let count = row.number.0[0] as usize;
    row.presentation <= 1
        && row.number_type <= 2
        && count <= 15
        && row.number.0[1..1 + count].iter().all(u8::is_ascii_digit)
        && row.number.0[1 + count..].iter().all(|&octet| octet == 0)
}

/// Two taken rows have no leg, reference or LinkId in common.
fn apart(a: &Row, b: &Row) -> bool {
    if a.standing == Standing::Empty || b.standing == Standing::Empty {
        return true;
    }
    let calls_apart = match (a.call(), b.call()) {
        (Some(x), Some(y)) => x.reference != y.reference && (x.link.is_none() || x.link != y.link),
        _ => true,
    };
    a.leg != b.leg && calls_apart
}

fn partner_agrees(rows: &[Row], place: usize, row: &Row) -> bool {
    let Standing::Joined { partner, alerts } = row.standing else { return true };
    rows.iter().enumerate().any(|(other, found)| match found.standing {
        Standing::Joined { partner: back, alerts: too } => {
            other != place && found.leg == partner && back == row.leg && !(alerts && too)
        }
        _ => false,
    })
}

/// How many LinkIds are live.
pub fn live(rows: &[Row]) -> usize {
    rows.iter().filter(|row| row.call().is_some_and(|call| call.link.is_some())).count()
}
