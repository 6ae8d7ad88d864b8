//! Where each octet of a log stands in its archive, reckoned from the kinds alone.

/// The octets of a body, by kind from 1.
const BODIES: [usize; 9] = [24, 3, 3, 4, 35, 4, 69, 67, 25];
/// The longest of them.
pub const LONGEST: usize = 69;
/// Two options and four octets of count stand in front of the kinds.
pub const KINDS_AT: usize = 6;

/// The octets of a body of a known kind.
pub fn body(kind: u8) -> Option<usize> {
    BODIES.get(usize::from(kind).checked_sub(1)?).copied()
}

/// For each octet of a log of records of these kinds, which are known, its place in the archive.
pub fn places(kinds: &[u8]) -> Vec<usize> {
    let mut counts = [0; 9];
    kinds.iter().for_each(|&kind| counts[usize::from(kind) - 1] += 1);
    let mut fronts = [KINDS_AT + kinds.len(); 9];
    for which in 1..9 {
        fronts[which] = fronts[which - 1] + counts[which - 1] * BODIES[which - 1];
    }
    let mut places = vec![0, 1];
    let mut ranks = [0; 9];
    for (number, &kind) in kinds.iter().enumerate() {
        let which = usize::from(kind) - 1;
        places.push(KINDS_AT + number);
        let first = fronts[which] + ranks[which];
        places.extend((0..BODIES[which]).map(|column| first + column * counts[which]));
        ranks[which] += 1;
    }
    places
}

/// The records of such kinds, as far as an archive has their octets: none for one that lacks some.
pub fn records(archive: &[u8], kinds: &[u8], kinds_at: usize) -> Vec<Option<Vec<u8>>> {
    // Where kinds are left out that are not known, the bodies stand farther back.
    let shift = kinds_at - KINDS_AT;
    let places = places(kinds);
    let mut rest = &places[2..];
    let mut records = Vec::new();
    for &kind in kinds {
        let (of_record, behind) = rest.split_at(1 + BODIES[usize::from(kind) - 1]);
        let body = of_record[1..].iter().map(|place| archive.get(place + shift));
        records.push([Some(&kind)].into_iter().chain(body).map(|octet| octet.copied()).collect());
        rest = behind;
    }
    records
}
