//! Orders in which a program might put the octets of bodies, the right one first.

use crate::archive_places::body;
use crate::seen_layout::LayoutSeen;

/// An octet of a body: of which kind and record, and its column.
#[derive(Clone, Copy)]
struct Place {
    kind: isize,
    record: isize,
    column: isize,
}

type Order = fn(Place) -> [isize; 3];

const RIGHT: Order = |at| [at.kind, at.column, at.record];
/// Each with what is seen where it differs from the right one.
const OTHERS: [(Order, LayoutSeen); 7] = [
    (|at| [at.kind, at.record, at.column], LayoutSeen::NotByRecord),
    (|at| [at.kind, at.column, -at.record], LayoutSeen::NotFromLast),
    (|at| [at.kind, -at.column, at.record], LayoutSeen::NotFromLastColumn),
    (|at| [-at.kind, at.column, at.record], LayoutSeen::NotDescending),
    (|at| [at.record, at.column, 0], LayoutSeen::NotAsLog),
    (|at| [at.column, at.kind, at.record], LayoutSeen::NotColumnFirst),
    (|at| [at.column, at.record, 0], LayoutSeen::NotColumnAlone),
];

/// The bodies in that order.
fn bodies(list: &[&[u8]], order: Order) -> Vec<u8> {
    let mut octets: Vec<([isize; 3], u8)> = Vec::new();
    for (number, record) in list.iter().enumerate() {
        let places = (0..body(record[0]).unwrap_or(0)).map(|column| Place {
            kind: record[0].into(),
            record: number as isize,
            column: column as isize,
        });
        octets.extend(places.map(order).zip(record[1..].iter().copied()));
    }
    octets.sort_unstable();
    octets.into_iter().map(|(_, octet)| octet).collect()
}

/// The bodies as an archive has them.
pub fn right(list: &[&[u8]]) -> Vec<u8> {
    bodies(list, RIGHT)
}

/// Which orders would give other octets than these, the right ones.
pub fn others<'a>(list: &'a [&[u8]], right: &'a [u8]) -> impl Iterator<Item = LayoutSeen> + 'a {
    OTHERS.iter().filter(move |(order, _)| bodies(list, *order) != right).map(|(_, seen)| *seen)
}
