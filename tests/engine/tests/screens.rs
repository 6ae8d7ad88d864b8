//! Consoles that show legs in a wrong way or redraw too few of them: made scripts tell each of them from the right
//! one, and what holds of every item is not so with it.

#[path = "common/wrong_console.rs"]
mod wrong_console;

use engine::attendant::{Shown, Way};
use wrong_console::{
    accepted, gone_kept, leg_in, partner, right_pin, right_redraw, told_apart, Played, Wrong, ANSWER, RELEASE,
};

fn shown_as(from: Way, to: Way, shown: Shown) -> Shown {
    Shown { way: if shown.way == from { to } else { shown.way }, ..shown }
}

#[test]
fn lines_kept_or_shown_in_a_wrong_way() {
    told_apart([
        ("a line kept for a leg that has gone", Wrong::redraws(gone_kept)),
        (
            "a line kept for the partner of a leg that has gone",
            Wrong::redraws(|wrong, played| {
                let partner = leg_in(played.record).and_then(|leg| partner(played.before, leg));
                let kept = |shown: &Shown| played.record[0] == RELEASE && Some(shown.leg) == partner;
                accepted(wrong, played, |shown| {
                    Shown::on(played.after, shown.leg).or(Some(shown).filter(kept))
                });
            }),
        ),
        (
            "alerting shown after the answer",
            Wrong::redraws(|wrong, played| {
                accepted(wrong, played, |shown| {
                    let now = Shown::on(played.after, shown.leg)?;
                    Some(if shown.way == Way::Alerting { shown } else { now })
                });
            }),
        ),
        (
            "alerting shown until the event behind the answer",
            Wrong::redraws(|wrong, played| {
                if played.record.first() != Some(&ANSWER) {
                    right_redraw(wrong, played);
                }
            }),
        ),
        (
            "joined shown for alerting",
            Wrong::redraws(|wrong, played| {
                right_redraw(wrong, played);
                wrong.each(|shown| Some(shown_as(Way::Alerting, Way::Joined, shown)));
            }),
        ),
        (
            "the partner of one that alerts shown as alerting",
            Wrong::redraws(|wrong, played| {
                right_redraw(wrong, played);
                let alerts =
                    |leg| Shown::on(played.after, leg).is_some_and(|shown| shown.way == Way::Alerting);
                wrong.each(|shown| {
                    let of_alerting = partner(played.after, shown.leg).is_some_and(alerts);
                    Some(if of_alerting { Shown { way: Way::Alerting, ..shown } } else { shown })
                });
            }),
        ),
        (
            "with the user shown for joined",
            Wrong::redraws(|wrong, played| {
                right_redraw(wrong, played);
                wrong.each(|shown| Some(shown_as(Way::Joined, Way::User, shown)));
            }),
        ),
        (
            "pinned as with the user, whatever the board has",
            Wrong::pins(|wrong, board, leg| {
                let returned = right_pin(wrong, board, leg);
                if let (0, Some(line)) = (returned, wrong.screen.line_of(leg)) {
                    wrong.screen.0[line] = Some(Shown { leg, way: Way::User });
                }
                returned
            }),
        ),
        (
            "pinned as joined where it alerts",
            Wrong::pins(|wrong, board, leg| {
                let returned = right_pin(wrong, board, leg);
                if let (0, Some(line)) = (returned, wrong.screen.line_of(leg)) {
                    let line = &mut wrong.screen.0[line];
                    *line = line.map(|shown| shown_as(Way::Alerting, Way::Joined, shown));
                }
                returned
            }),
        ),
    ]);
}

/// What is redrawn is less than what an event has changed.
#[test]
fn rows_of_other_legs() {
    /// The leg that an event names, by its call too.
    fn named(played: &Played) -> Option<u32> {
        let reference = played.record.get(1..3)?;
        leg_in(played.record).or_else(|| {
            let rows = played.before.rows.iter();
            let calls = rows.filter_map(|row| Some((row.leg, row.call()?.reference.0)));
            calls.into_iter().find(|(_, own)| own.to_be_bytes() == reference).map(|(leg, _)| leg)
        })
    }
    fn but_for(wrong: &mut Wrong, played: &Played, kinds: &[u8], keeps: impl Fn(u32) -> bool) {
        let kind = kinds.contains(&played.record[0]);
        accepted(wrong, played, |shown| {
            if kind && keeps(shown.leg) {
                Some(shown)
            } else {
                Shown::on(played.after, shown.leg)
            }
        });
    }
    told_apart([
        (
            "a transfer redraws the named call's leg alone",
            Wrong::redraws(|wrong, played| {
                let leg = named(played);
                but_for(wrong, played, &[5], |shown| Some(shown) != leg);
            }),
        ),
        (
            "a transfer redraws the other leg alone",
            Wrong::redraws(|wrong, played| {
                let leg = named(played);
                but_for(wrong, played, &[5], |shown| Some(shown) == leg);
            }),
        ),
        (
            "a Release redraws its own leg alone",
            Wrong::redraws(|wrong, played| {
                let leg = named(played);
                but_for(wrong, played, &[RELEASE], |shown| Some(shown) != leg);
            }),
        ),
        (
            "a Release redraws the partner alone",
            Wrong::redraws(|wrong, played| {
                let partner = named(played).and_then(|leg| partner(played.before, leg));
                but_for(wrong, played, &[RELEASE], |shown| partner.is_some() && Some(shown) != partner);
            }),
        ),
        (
            "an Answer redraws the partner alone",
            Wrong::redraws(|wrong, played| {
                let leg = named(played);
                but_for(wrong, played, &[ANSWER], |shown| Some(shown) == leg);
            }),
        ),
        (
            "American transfers are not seen",
            Wrong::redraws(|wrong, played| {
                let american = played.after.alerting > 1;
                but_for(wrong, played, &[5], |_| american);
            }),
        ),
        ("a Facility is not seen", Wrong::redraws(|wrong, played| but_for(wrong, played, &[5], |_| true))),
    ]);
}
