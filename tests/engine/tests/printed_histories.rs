//! The lines of short histories that the product's cases print: the records, and the list.

use std::fs;

use engine::compare::{compare, Difference};
use engine::histories::{history, records};

/// The line of a place.
fn line(place: usize) -> String {
    let (returned, history) = history(place);
    if returned != 0 {
        return format!("history {place}: {returned}\n");
    }
    let numbers: String = history.numbers().iter().map(|number| format!(" {number}")).collect();
    format!("history {place}:{numbers}\n")
}

/// The lines that the product's cases have to print: for each record and the number behind them, for each place in the
/// list and the one behind it, and for the largest place.
fn printed() -> String {
    let mut text = String::new();
    for (number, record) in records().iter().chain([&Vec::new()]).enumerate() {
        let octets: String = record.iter().map(|octet| format!("{octet:02x}")).collect();
        text += &format!("event {number}: {octets}\n");
    }
    for place in 0.. {
        text += &line(place);
        if history(place).0 != 0 {
            break;
        }
    }
    text + &line(usize::MAX)
}

/// The lines that begin with one of the two words.
fn of_histories(text: &str) -> String {
    let begins = |line: &&str| {
        ["event", "history"]
            .iter()
            .any(|word| line.strip_prefix(word).is_some_and(|rest| !rest.starts_with(char::is_alphanumeric)))
    };
    text.split_inclusive('\n').filter(begins).collect()
}

#[test]
fn the_lines_due() {
    let due = printed();
    let lines: Vec<&str> = due.lines().collect();
    assert_eq!(lines.len(), 7 + 72 + 1);
    assert_eq!(lines[0], "event 0: 01000100000001000002323100000000000000000000000000");
    assert_eq!(lines[1], "event 1: 01000200000002010002323100000000000000000000000000");
    assert_eq!(
        lines[2..6],
        ["event 2: 0200010a", "event 3: 0200020a", "event 4: 0400000001", "event 5: 0400000002"]
    );
    assert_eq!(lines[6], "event 6: ");
    assert_eq!(
        lines[7..12],
        ["history 0:", "history 1: 0", "history 2: 1", "history 3: 0 1", "history 4: 0 2"]
    );
    assert_eq!(lines[77..79], ["history 70: 1 5 1 5", "history 71: 15"]);
    assert_eq!(lines[79], format!("history {}: 15", usize::MAX));
    // Other lines may stand anywhere.
    assert_eq!(of_histories(&format!("a\nhistories 0:\n{due} history 72: 15\nthe history\nevents\n")), due);
    let with_more = format!("{due}history 72: 15\n");
    assert_eq!(of_histories(&with_more), with_more);
}

#[test]
fn the_products_cases_print_the_same() {
    let path = format!("{}/../../crates/ect_cases/stdout", env!("CARGO_MANIFEST_DIR"));
    let text = fs::read_to_string(&path)
        .unwrap_or_else(|error| panic!("{path}, what the product's cases print, cannot be read: {error}"));
    let same = compare(printed().as_bytes(), of_histories(&text).as_bytes());
    if let Err(Difference { line, expected, got }) = same {
        panic!(
            "{path}: of the lines that begin with \"event\" or \"history\", number {line} has to be {expected}, not {got}"
        );
    }
}
