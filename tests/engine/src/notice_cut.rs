//! What occurs where a record is cut.

use crate::fields::call;

/// Where it is cut, of what there is by kind and place, if its kind has so long a body.
pub fn place<T: Copy>(record: &[u8], body: Option<usize>, seen: [[T; 3]; 9]) -> T {
    let place = match record.len() {
        1 => 0,
        length if Some(length) == body => 1,
        _ => 2,
    };
    seen[usize::from(record[0]) - 1][place]
}

/// Whether a field is wrong before the cut.
pub fn wrong_field(record: &[u8]) -> bool {
    let kind = record[0];
    let reference = !matches!(kind, 4 | 6 | 7) && record.len() > 2 && !call(record);
    let party = matches!(kind, 1 | 9) && record.iter().skip(7).take(2).any(|&octet| octet > 1);
    reference || party
}
