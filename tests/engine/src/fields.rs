//! Whether the fields of a record of full length are in range, by the places of its octets.

pub fn in_range(record: &[u8]) -> bool {
    match record[0] {
        1 => call(record) && party(record) && number(&record[9..]),
        9 => call(record) && party(record) && record[9] < 3 && number(&record[10..]),
        2 => call(record) && (record[3] == 4 || record[3] == 10),
        3 => call(record) && record[3] < 4,
        5 | 8 => call(record) && component(&record[3..]),
        7 => component(&record[5..]),
        _ => true,
    }
}

/// Where the kind has a reference.
pub fn call(record: &[u8]) -> bool {
    !record[1].is_multiple_of(0x80) || record[2] != 0
}

/// Direction and presentation.
fn party(record: &[u8]) -> bool {
    record[7] < 2 && record[8] < 2
}

/// A count and 15 octets.
fn number(octets: &[u8]) -> bool {
    let count = usize::from(octets[0]);
    let digits = octets[1..].iter().enumerate();
    count < 16
        && digits.into_iter().all(
            |(place, octet)| {
                if place < count {
                    (0x30..0x3A).contains(octet)
                } else {
                    *octet == 0
                }
            },
        )
}

/// A count and as many octets as there can be.
fn component(octets: &[u8]) -> bool {
    let count = usize::from(octets[0]);
    count != 0 && count < octets.len() && octets[1 + count..].iter().all(|octet| *octet == 0)
}
