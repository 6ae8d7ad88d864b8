//! Consoles whose screen a refusal touches: made scripts tell each of them from the right one, and what holds of
//! every item is not so with it.

#[path = "common/wrong_console.rs"]
mod wrong_console;

use engine::attendant::{Screen, Shown, Way};
use wrong_console::{leg_in, right_pin, right_redraw, told_apart, Played, Wrong};

#[test]
fn screens_that_a_refusal_touches() {
    fn emptied(wrong: &mut Wrong, leg: u32) {
        wrong.each(|shown| Some(shown).filter(|shown| shown.leg != leg));
    }
    /// What is done to a screen by a pin that is refused so.
    macro_rules! refused_pin {
        ($number:pat, |$wrong:ident, $leg:ident| $done:expr) => {
            Wrong::pins(|$wrong, board, $leg| {
                let returned = right_pin($wrong, board, $leg);
                if matches!(returned, $number) {
                    $done;
                }
                returned
            })
        };
    }
    /// And by an event.
    macro_rules! refused_event {
        ($number:pat, |$wrong:ident, $played:ident| $done:expr) => {
            Wrong::redraws(|$wrong, $played| {
                right_redraw($wrong, $played);
                if matches!($played.returned, $number) {
                    $done;
                }
            })
        };
    }
    fn shown(wrong: &mut Wrong, leg: u32) {
        if let Some(line) = wrong.screen.lowest_empty() {
            wrong.screen.0[line] = Some(Shown { leg, way: Way::User });
        }
    }
    fn named_emptied(wrong: &mut Wrong, played: &Played) {
        if let Some(leg) = leg_in(played.record) {
            emptied(wrong, leg);
        }
    }
    told_apart([
        ("16 shows the leg", refused_pin!(16, |wrong, leg| shown(wrong, leg))),
        ("16 empties the screen", refused_pin!(16, |wrong, _leg| wrong.screen = Screen::EMPTY)),
        ("17 shows the leg twice", refused_pin!(17, |wrong, leg| shown(wrong, leg))),
        ("17 empties the line", refused_pin!(17, |wrong, leg| emptied(wrong, leg))),
        (
            "17 moves the leg to the lowest line",
            refused_pin!(17, |wrong, leg| {
                emptied(wrong, leg);
                shown(wrong, leg);
            }),
        ),
        (
            "17 shows the leg as with the user",
            refused_pin!(17, |wrong, leg| wrong.each(|shown| {
                Some(if shown.leg == leg { Shown { way: Way::User, ..shown } } else { shown })
            })),
        ),
        (
            "18 takes the last line",
            refused_pin!(18, |wrong, leg| wrong.screen.0[15] = Some(Shown { leg, way: Way::User })),
        ),
        (
            "18 takes the first line",
            refused_pin!(18, |wrong, leg| wrong.screen.0[0] = Some(Shown { leg, way: Way::User })),
        ),
        (
            "18 moves the lines",
            refused_pin!(18, |wrong, leg| {
                wrong.screen.0.rotate_left(1);
                wrong.screen.0[15] = Some(Shown { leg, way: Way::User });
            }),
        ),
        ("an event's empties the screen", refused_event!(1.., |wrong, _played| wrong.screen = Screen::EMPTY)),
        ("5 empties the line", refused_event!(5, |wrong, played| named_emptied(wrong, played))),
        ("6 empties the line", refused_event!(6, |wrong, played| named_emptied(wrong, played))),
        (
            "6 shows the leg as with the user",
            refused_event!(6, |wrong, played| {
                let leg = leg_in(played.record);
                wrong.each(|shown| {
                    Some(if Some(shown.leg) == leg { Shown { way: Way::User, ..shown } } else { shown })
                });
            }),
        ),
        (
            "7 shows the leg",
            refused_event!(7, |wrong, played| {
                leg_in(played.record).into_iter().for_each(|leg| shown(wrong, leg));
            }),
        ),
        ("8 empties the screen", refused_event!(8, |wrong, _played| wrong.screen = Screen::EMPTY)),
        ("9 empties the screen", refused_event!(9, |wrong, _played| wrong.screen = Screen::EMPTY)),
        ("10 empties the screen", refused_event!(10, |wrong, _played| wrong.screen = Screen::EMPTY)),
        ("11 empties the line", refused_event!(11, |wrong, played| named_emptied(wrong, played))),
        (
            "11 shows the leg as joined",
            refused_event!(11, |wrong, played| {
                let leg = leg_in(played.record);
                wrong.each(|shown| {
                    Some(if Some(shown.leg) == leg { Shown { way: Way::Joined, ..shown } } else { shown })
                });
            }),
        ),
        ("12 empties the line", refused_event!(12, |wrong, played| named_emptied(wrong, played))),
        ("3 empties the screen", refused_event!(3, |wrong, _played| wrong.screen = Screen::EMPTY)),
        ("4 empties the screen", refused_event!(4, |wrong, _played| wrong.screen = Screen::EMPTY)),
    ]);
}
