//! What occurs where a leg is pinned.

use crate::attendant::{Way, LINES};
use crate::board::{Aux, Board, CallState, Row, Standing, ROWS};
use crate::memory::Memory;
use crate::screened::{row_of, Moment};
use crate::seen_pin::PinSeen::{self, *};
use crate::seen_screen::Taken;
use crate::tally::Tally;

const ON_LINE: [PinSeen; LINES] = [
    Line1, Line2, Line3, Line4, Line5, Line6, Line7, Line8, Line9, Line10, Line11, Line12, Line13, Line14,
    Line15, Line16,
];

pub fn notice(leg: u32, moment: &Moment, memory: &Memory, tally: &mut Tally) {
    match (moment.returned, row_of(moment.before, leg)) {
        (0, Some((place, row))) => {
            standing(row, moment, tally);
            line(leg, moment, memory, tally);
            tally.add_if(place == 0, Row1);
            tally.add_if(place == ROWS - 1, Row64);
        }
        (17, _) => shown(leg, moment, memory, tally),
        (18, Some((_, row))) => full(row, moment, memory, tally),
        _ => absent(leg, moment, memory, tally),
    }
}

/// Whether the row of a joined leg's partner alerts.
fn partner_alerts(board: &Board, partner: u32) -> bool {
    row_of(board, partner)
        .is_some_and(|(_, row)| matches!(row.standing, Standing::Joined { alerts: true, .. }))
}

fn standing(row: &Row, moment: &Moment, tally: &mut Tally) {
    match row.standing {
        Standing::Empty => {}
        Standing::Served(call) => {
            tally.add(match call.state {
                CallState::Proceeding => User3,
                CallState::Delivered => User4,
                CallState::Received => User7,
                CallState::Active => User10,
            });
            tally.add_if(call.aux != Aux::Idle, NotIdle);
        }
        Standing::Joined { partner, alerts } => {
            let of_alerting = partner_alerts(moment.before, partner);
            tally.add(if alerts { Alerting } else { [Joined, OfAlerting][usize::from(of_alerting)] });
            tally.add_if(moment.was.line_of(partner).is_some(), BesidePartner);
        }
    }
}

/// The line that the leg is now on, among the others.
fn line(leg: u32, moment: &Moment, memory: &Memory, tally: &mut Tally) {
    let (Some(line), lines) = (moment.is.line_of(leg), moment.was.0) else { return };
    tally.add(ON_LINE[line]);
    let highest = lines.iter().rposition(Option::is_some).unwrap_or(0);
    let gaps = lines[..highest].iter().filter(|line| line.is_none()).count();
    tally.add_if(gaps > 0, Gap);
    tally.add_if(gaps > 1, Gaps);
    tally.add_if(gaps == 1 && highest == LINES - 1, OnlyEmpty);
    let before = memory.gone(leg).map(|gone| gone.line);
    tally.add_each(before.map(|before| if before == line { SameLine } else { OtherLine }));
    tally.add_if(memory.full.contains(&leg), AfterFull);
    tally.add_if(memory.absent.contains(&leg), AfterAbsent);
    tally.add_if(leg == 0, Leg0);
    tally.add_if(leg >= 1 << 31, LegHalf);
    tally.add_if(leg == u32::MAX, LegMost);
}

fn absent(leg: u32, moment: &Moment, memory: &Memory, tally: &mut Tally) {
    let gone = memory.gone(leg);
    tally.add(match gone {
        Some(gone) if gone.with_partner => AbsentPartner,
        Some(_) => AbsentReleased,
        None if memory.opened.contains(&leg) => AbsentUnshown,
        None => Absent,
    });
    let taken = Taken::of(moment.was);
    tally.add_if(taken == Taken::No, AbsentNone);
    tally.add_if(taken == Taken::All, AbsentAll);
    tally.add_if(taken == Taken::All && gone.is_some(), AbsentGoneAll);
    tally.add_if(leg == 0 && moment.before.rows.contains(&Row::EMPTY), Absent0);
    let mut shown = moment.was.0.iter().flatten();
    tally.add_if(shown.any(|shown| (shown.leg ^ leg).count_ones() == 1), AbsentNear);
}

fn shown(leg: u32, moment: &Moment, memory: &Memory, tally: &mut Tally) {
    let Some(line) = moment.was.line_of(leg) else { return };
    let Some(way) = moment.was.0[line].map(|shown| shown.way) else { return };
    tally.add(by_way(way, [ShownUser, ShownJoined, ShownAlerting]));
    tally.add_if(Taken::of(moment.was) == Taken::All, ShownAll);
    tally.add_if(moment.was.0[..line].contains(&None), ShownGap);
    let other = |pinned: Way| pinned != way;
    tally.add_if(memory.followed.iter().any(|one| one.leg == leg && other(one.pinned)), ShownSince);
    tally.add_if(line == 0, ShownFirst);
    tally.add_if(line == LINES - 1, ShownLast);
}

fn full(row: &Row, moment: &Moment, memory: &Memory, tally: &mut Tally) {
    tally.add(match row.standing {
        Standing::Joined { alerts: true, .. } => FullAlerting,
        Standing::Joined { .. } => FullJoined,
        _ => FullUser,
    });
    if let Standing::Joined { partner, .. } = row.standing {
        tally.add_if(moment.was.line_of(partner).is_some(), FullBesidePartner);
    }
    let legs = moment.before.rows.iter().filter(|row| row.standing != Standing::Empty).count();
    tally.add_if(legs == LINES + 1, Full17);
    tally.add_if(legs == ROWS, Full64);
    tally.add_if(memory.full.contains(&row.leg), FullTwice);
}

pub fn by_way<T: Copy>(way: Way, seen: [T; 3]) -> T {
    seen[way as usize]
}
