//! Consoles that pin legs on a wrong line or by other checks, and such that keep legs in mind: made scripts tell
//! each of them from the right one, and what holds of every item is not so with it.

#[path = "common/wrong_console.rs"]
mod wrong_console;

use engine::attendant::{Console, Screen, Shown, Way, LINES};
use engine::attended::text;
use engine::board::Board;
use wrong_console::{gone_kept, leg_in, right_pin, right_redraw, scripts, told_apart, Played, Wrong};

#[test]
fn lines_that_are_taken() {
    fn highest(wrong: &mut Wrong, board: &Board, leg: u32) -> u8 {
        wrong.screen.0.reverse();
        let returned = right_pin(wrong, board, leg);
        wrong.screen.0.reverse();
        returned
    }
    fn behind_last(wrong: &mut Wrong, board: &Board, leg: u32) -> u8 {
        let end = wrong.screen.0.iter().rposition(Option::is_some).map_or(0, |line| line + 1) % LINES;
        wrong.screen.0.rotate_left(end);
        let returned = right_pin(wrong, board, leg);
        wrong.screen.0.rotate_right(end);
        returned
    }
    fn moved_up(wrong: &mut Wrong, played: &Played) {
        right_redraw(wrong, played);
        wrong.screen.0.sort_by_key(Option::is_none);
    }
    fn moved_down(wrong: &mut Wrong, played: &Played) {
        right_redraw(wrong, played);
        let last = wrong.screen.0.iter().rposition(Option::is_some).map_or(0, |line| line + 1);
        wrong.screen.0[..last].sort_by_key(Option::is_some);
    }
    told_apart([
        ("the highest empty line", Wrong::pins(highest)),
        ("the line behind the last one taken", Wrong::pins(behind_last)),
        ("lines that move up", Wrong::redraws(moved_up)),
        ("lines that move down", Wrong::redraws(moved_down)),
        (
            "lines in the order of the legs",
            Wrong::pins(|wrong, board, leg| {
                let returned = right_pin(wrong, board, leg);
                wrong.screen.0.sort_by_key(|line| (line.is_none(), line.map(|shown| shown.leg)));
                returned
            }),
        ),
        (
            "fifteen lines",
            Wrong::pins(|wrong, board, leg| {
                let full = wrong.screen.0[..15].iter().all(Option::is_some);
                let refused = full && Shown::on(board, leg).is_some() && wrong.screen.line_of(leg).is_none();
                if refused {
                    18
                } else {
                    right_pin(wrong, board, leg)
                }
            }),
        ),
        (
            "leg 0 taken for an empty line",
            Wrong::both(
                |wrong, board, leg| {
                    wrong.each(|shown| Some(shown).filter(|shown| shown.leg != 0));
                    right_pin(wrong, board, leg)
                },
                right_redraw,
            ),
        ),
        (
            "leg 0 found in an empty row",
            Wrong::pins(|wrong, board, leg| match right_pin(wrong, board, leg) {
                16 if leg == 0 => 0,
                returned => returned,
            }),
        ),
        (
            "legs of sixteen bits",
            Wrong::pins(|wrong, board, leg| {
                let same = |shown: &Shown| shown.leg != leg && shown.leg as u16 == leg as u16;
                match right_pin(wrong, board, leg) {
                    16 if wrong.screen.0.iter().flatten().any(same) => 17,
                    returned => returned,
                }
            }),
        ),
    ]);
}

/// A leg that has gone is followed no more, and one that found no line is not kept in mind.
#[test]
fn legs_that_come_back() {
    fn kept(wrong: &mut Wrong, played: &Played, lowest: bool) {
        let was = wrong.screen.0;
        right_redraw(wrong, played);
        let gone = (0..).zip(was).filter(|(line, was)| was.is_some() && wrong.screen.0[*line].is_none());
        wrong.kept.extend(gone.filter_map(|(line, was)| Some((line, was?.leg))));
        let opened =
            leg_in(played.record).filter(|_| matches!(played.record[0], 1 | 9) && played.returned == 0);
        let Some(leg) = opened else { return };
        if let Some(&(line, _)) = wrong.kept.iter().rfind(|(_, kept)| *kept == leg) {
            let line = if lowest { wrong.screen.lowest_empty() } else { Some(line) };
            if let Some(line) = line.filter(|&line| wrong.screen.0[line].is_none()) {
                wrong.screen.0[line] = Shown::on(played.after, leg);
            }
        }
    }
    told_apart([
        ("the line that it had", Wrong::redraws(|wrong, played| kept(wrong, played, false))),
        ("the lowest empty line", Wrong::redraws(|wrong, played| kept(wrong, played, true))),
        (
            "17 for a leg that was shown once",
            Wrong::pins(|wrong, board, leg| match right_pin(wrong, board, leg) {
                0 if wrong.kept.contains(&(0, leg)) => {
                    wrong.each(|shown| Some(shown).filter(|shown| shown.leg != leg));
                    17
                }
                0 => {
                    wrong.kept.push((0, leg));
                    0
                }
                returned => returned,
            }),
        ),
        (
            "a leg that got 18 takes the line that becomes empty",
            Wrong::both(
                |wrong, board, leg| {
                    let returned = right_pin(wrong, board, leg);
                    if returned == 18 {
                        wrong.kept.push((0, leg));
                    }
                    returned
                },
                |wrong, played| {
                    right_redraw(wrong, played);
                    if let Some((_, leg)) = wrong.kept.pop() {
                        if right_pin(wrong, played.after, leg) == 18 {
                            wrong.kept.push((0, leg));
                        }
                    }
                },
            ),
        ),
    ]);
}

#[test]
fn checks_in_another_order() {
    fn shown_before_full(wrong: &mut Wrong, board: &Board, leg: u32) -> u8 {
        match right_pin(wrong, board, leg) {
            17 if wrong.full() => 18,
            returned => returned,
        }
    }
    fn full_before_absent(wrong: &mut Wrong, board: &Board, leg: u32) -> u8 {
        match right_pin(wrong, board, leg) {
            16 if wrong.full() => 18,
            returned => returned,
        }
    }
    fn full_first(wrong: &mut Wrong, board: &Board, leg: u32) -> u8 {
        match right_pin(wrong, board, leg) {
            16 | 17 if wrong.full() => 18,
            returned => returned,
        }
    }
    told_apart([
        ("18 before 17", Wrong::pins(shown_before_full)),
        ("18 before 16", Wrong::pins(full_before_absent)),
        ("18 first", Wrong::pins(full_first)),
        ("17 before 16, where a line is kept", Wrong::both(shown_first, gone_kept)),
    ]);
}

fn shown_first(wrong: &mut Wrong, board: &Board, leg: u32) -> u8 {
    if wrong.screen.line_of(leg).is_some() {
        return 17;
    }
    right_pin(wrong, board, leg)
}

/// On a screen that began empty a leg that is shown is on the board, so that no script tells 17 before 16.
/// A lent screen does.
#[test]
fn seventeen_before_sixteen() {
    for script in scripts() {
        assert_eq!(text(&script, Wrong::pins(shown_first)), text(&script, Screen::EMPTY));
    }
    let mut lent = Screen::EMPTY;
    lent.0[4] = Some(Shown { leg: 7, way: Way::User });
    let board = Board::empty(1, 1);
    assert_eq!(Wrong { screen: lent, ..Wrong::pins(shown_first) }.pin(&board, 7), 17);
    assert_eq!(lent.pin(&board, 7), 16);
}
