//! The two openings: what they return and the board that comes back; and what the product's print.

use std::fs;

use engine::board::{Board, LinkId, Row};
use engine::opening::{live, old_log};
use engine::rows::board_sound;

type Opening = fn(u8, u8) -> (u8, Board);

/// A fresh board with these options, whatever was returned.
fn opened(opening: Opening, [first, second]: [u8; 2], returned: u8, options: (u8, u8)) {
    let (number, board) = opening(first, second);
    assert_eq!(number, returned, "{first} {second}");
    assert_eq!((board.subscribed, board.alerting), options, "{first} {second}");
    assert!(board.rows.iter().all(|row| *row == Row::EMPTY));
    assert_eq!(board.candidate, LinkId(0));
    assert!(board_sound(&board));
}

#[test]
fn boards_for_old_logs() {
    for octets in [[0, 3], [1, 2], [2, 3]] {
        opened(old_log, octets, 0, octets.into());
    }
    for octets in [[0, 4], [1, 4], [2, 4], [3, 0]] {
        opened(old_log, octets, 5, (0, 0));
    }
}

#[test]
fn live_boards() {
    for octets in [[0, 3], [2, 0]] {
        opened(live, octets, 0, octets.into());
    }
    for octets in [[1, 0], [1, 4], [1, 255]] {
        opened(live, octets, 14, (0, 0));
    }
    for octets in [[0, 4], [2, 4], [3, 0]] {
        opened(live, octets, 5, (0, 0));
    }
}

/// As the table has them; where the first octet is not 1 the two openings give the same.
#[test]
fn all_octets() {
    let (_, empty) = old_log(255, 255);
    for first in 0..=255 {
        for second in 0..=255 {
            let octets = [first, second];
            let of_old = if first <= 2 && second <= 3 { (0, octets.into()) } else { (5, (0, 0)) };
            let of_live = if first == 1 { (14, (0, 0)) } else { of_old };
            for (opening, due) in [(old_log as Opening, of_old), (live, of_live)] {
                let (returned, board) = opening(first, second);
                assert_eq!((returned, (board.subscribed, board.alerting)), due, "{octets:?}");
                assert_eq!(board, Board { subscribed: due.1 .0, alerting: due.1 .1, ..empty.clone() });
            }
        }
    }
}

/// What the product's openings print, a line for each two octets.
fn printed() -> Vec<String> {
    let mut lines = Vec::new();
    for (name, opening) in [("live", live as Opening), ("old log", old_log)] {
        for first in [0, 1, 2, 3, 255] {
            for second in [0, 1, 2, 3, 4, 255] {
                let (returned, Board { subscribed, alerting, .. }) = opening(first, second);
                lines.push(format!("{name} {first} {second}: {returned}, options {subscribed} {alerting}"));
            }
        }
    }
    lines
}

#[test]
fn the_products_openings_print_the_same() {
    let path = format!("{}/../../crates/openings/stdout", env!("CARGO_MANIFEST_DIR"));
    let text = fs::read_to_string(&path).unwrap_or_else(|error| {
        panic!("{path}, the printed answers of the product's openings, cannot be read: {error}")
    });
    let expected = printed();
    assert_eq!(expected.len(), 60);
    for (number, (line, due)) in text.lines().zip(&expected).enumerate() {
        assert_eq!(line, due, "line {} of {path}", number + 1);
    }
    assert!(text == expected.join("\n") + "\n", "{path} does not have just these 60 lines");
}
