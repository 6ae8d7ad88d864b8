//! Directory lines and digits of parties, of any content.

use crate::rng::Rng;

/// A directory line and digits.
pub fn name(rng: &mut Rng) -> (Vec<u8>, Vec<u8>) {
    let line = match rng.weighted(&[30, 12, 12, 8, 10, 8, 6, 8, 6]) {
        0 => entry(rng),
        1 => some_text(rng, 20),
        2 => [b",".as_slice(), &entry(rng)].concat(),
        3 => vec![b','; rng.pick(&[1, 1, 2, 255])],
        4 => Vec::new(),
        5 => blanks(rng),
        6 => longest(rng),
        7 => noise(rng, 40),
        _ => vec![rng.octet()],
    };
    (line, digits(rng))
}

/// Parts with commas between, at times with blanks around them.
fn entry(rng: &mut Rng) -> Vec<u8> {
    let mut line = some_text(rng, 12);
    for _ in 0..rng.pick(&[1, 1, 1, 2, 3]) {
        let comma: &[u8] = rng.pick(&[b",", b", ", b" ,", b" , ", b",,", b"\t,"]);
        line.extend(comma);
        line.extend(some_text(rng, 12));
    }
    line
}

/// Letters, figures and blanks.
fn some_text(rng: &mut Rng, longest: usize) -> Vec<u8> {
    const OCTETS: &[u8] = b"abWard  21-.\xC3\xA4";
    (0..rng.below(longest)).map(|_| rng.pick(OCTETS)).collect()
}

/// A part of blanks alone, or with blanks at either end.
fn blanks(rng: &mut Rng) -> Vec<u8> {
    let part: &[u8] = rng.pick(&[b" ", b"   ", b" Ward", b"Ward ", b" Ward 4 ", b"\t", b"\x00", b"Ward\n"]);
    let behind: &[u8] = rng.pick(&[b"", b",", b", Wing B", b" ,"]);
    [part, behind].concat()
}

/// As many octets as there may be, or one fewer, with no comma or with one at a border.
fn longest(rng: &mut Rng) -> Vec<u8> {
    let mut line: Vec<u8> = (0..rng.pick(&[254, 255, 255])).map(|_| rng.octet() | 0x80).collect();
    let last = line.len() - 1;
    if rng.percent(70) {
        line[rng.pick(&[0, 1, 127, 128, last - 1, last])] = b',';
    }
    line
}

/// Octets of any value.
fn noise(rng: &mut Rng, longest: usize) -> Vec<u8> {
    (0..rng.within(1, longest)).map(|_| if rng.percent(8) { b',' } else { rng.octet() }).collect()
}

fn digits(rng: &mut Rng) -> Vec<u8> {
    let length = match rng.weighted(&[25, 60, 10, 5]) {
        0 => 0,
        1 => rng.within(1, 15),
        2 => rng.within(1, 40),
        _ => 255,
    };
    if rng.percent(20) {
        let octet = |rng: &mut Rng| {
            let any = rng.octet();
            rng.pick(&[b',', b' ', 0, any])
        };
        return (0..length).map(|_| octet(rng)).collect();
    }
    (0..length).map(|_| b'0' + rng.below(10) as u8).collect()
}
