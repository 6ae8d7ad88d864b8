//! What a program that is run ends with, and how that differs from what is expected.

/// What a program has written on either stream, and its exit status.
#[derive(Clone, PartialEq, Eq, Debug, Default)]
pub struct Ended {
    pub output: Vec<u8>,
    pub errors: Vec<u8>,
    pub status: i32,
}

impl Ended {
    pub fn with_error(line: &str, status: i32) -> Ended {
        Ended { errors: line.as_bytes().to_vec(), status, ..Ended::default() }
    }
}

/// What of the three is not as expected, with the place of the first octet that differs.
pub fn differs(expected: &Ended, ended: &Ended) -> Option<String> {
    let mut lines = Vec::new();
    if expected.status != ended.status {
        lines.push(format!("exit status {} expected, not {}", expected.status, ended.status));
    }
    if expected.errors != ended.errors {
        let [expected, errors] = [expected, ended].map(|ended| String::from_utf8_lossy(&ended.errors));
        lines.push(format!("standard error {expected:?} expected, not {errors:?}"));
    }
    let (a, b) = (&expected.output, &ended.output);
    if a != b {
        let place = a.iter().zip(b).take_while(|(a, b)| a == b).count();
        let [due, got] =
            [a, b].map(|octets| octets.get(place).map_or("no octet".into(), |o| format!("{o:02x}")));
        lines.push(format!(
            "{} octets expected, {} came; at {place} {due} expected, not {got}",
            a.len(),
            b.len()
        ));
    }
    (!lines.is_empty()).then(|| lines.join("\n"))
}
