//! The scripts that are compared: logs with pins and names between their events.

use crate::draft::Draft;
use crate::event::{OPEN, OPEN_TYPED};
use crate::logs::steered;
use crate::moving::whole_records;
use crate::play::start;
use crate::records as make;
use crate::rng::Rng;
use crate::script_ends;

/// So often of a hundred is an opened leg pinned, and stand a pin, a name and a further event beside an event.
struct Habit {
    opened: usize,
    pin: usize,
    name: usize,
    event: usize,
}

const HABITS: [Habit; 5] = [
    Habit { opened: 95, pin: 12, name: 2, event: 6 },
    Habit { opened: 50, pin: 10, name: 4, event: 4 },
    Habit { opened: 0, pin: 5, name: 4, event: 3 },
    Habit { opened: 30, pin: 5, name: 70, event: 2 },
    Habit { opened: 60, pin: 50, name: 2, event: 14 },
];

/// One script made from a log, which may be damaged, at times with an end of its own.
pub fn script(rng: &mut Rng) -> Vec<u8> {
    let log = steered(rng);
    let Some((_, rest)) = start(&log) else {
        let (item, mut script) = (script_ends::item(rng), log);
        script.extend(item);
        return script;
    };
    let (mut script, starts, read) = between(rng, &log, rest);
    // What is cut or of an unknown kind, which may begin as a pin or a name.
    script.extend(&log[read..]);
    if rng.percent(15) {
        script_ends::end(rng, &mut script, &starts);
    }
    script
}

/// The items of a script that are neither cut nor of an unknown kind.
pub fn whole(rng: &mut Rng) -> Vec<u8> {
    let log = steered(rng);
    start(&log).map_or(Vec::new(), |(_, rest)| between(rng, &log, rest).0.split_off(2))
}

/// Items between the records of a log, as far as these are whole, with where each begins and how many octets of
/// the log were read.
fn between(rng: &mut Rng, log: &[u8], rest: &[u8]) -> (Vec<u8>, Vec<usize>, usize) {
    let habit = &HABITS[rng.weighted(&[30, 25, 10, 10, 25])];
    let mut draft = Draft::new(rng, log[0], log[1]);
    let mut read = 2;
    for record in whole_records(rest) {
        beside(&mut draft, habit);
        draft.event(record);
        behind(&mut draft, record, habit);
        read += record.len();
    }
    (draft.script.log, draft.starts, read)
}

/// What stands in front of an event.
fn beside(draft: &mut Draft, habit: &Habit) {
    if draft.percent(habit.pin) {
        let leg = some_leg(draft);
        draft.pin(leg);
    }
    if draft.percent(habit.name) {
        draft.name();
    }
    if draft.percent(habit.event) {
        further(draft);
    }
}

/// What follows an event: the pin of a leg that it opened, at times twice, or what comes of a leg that has gone.
fn behind(draft: &mut Draft, record: &[u8], habit: &Habit) {
    if let ([OPEN | OPEN_TYPED, _, _, a, b, c, d, ..], true) = (record, draft.percent(habit.opened)) {
        let leg = u32::from_be_bytes([*a, *b, *c, *d]);
        draft.pin(leg);
        if draft.percent(8) {
            draft.pin(leg);
        }
    }
    if let Some(gone) = draft.pick_gone().filter(|_| draft.percent(habit.opened / 6)) {
        since(draft, gone);
    }
}

/// What may come of a leg that has gone, and of the line that it was on: it comes back, or not, and is pinned
/// again, or another is, or both.
fn since(draft: &mut Draft, gone: u32) {
    let unshown = draft.pick_unshown();
    let (back, other, again) = draft.script.rng.pick(&[
        (false, false, true),
        (false, true, false),
        (true, false, false),
        (true, false, true),
        (true, true, true),
    ]);
    if back {
        draft.open(gone);
    }
    if let Some(leg) = unshown.filter(|_| other) {
        draft.pin(leg);
    }
    if again {
        draft.pin(gone);
    }
}

/// Shown, on the board and not shown, gone, or never there; its number may be near one that is.
fn some_leg(draft: &mut Draft) -> u32 {
    let leg = match draft.script.rng.weighted(&[40, 22, 14, 8, 4]) {
        0 => draft.pick_unshown(),
        1 => draft.pick_shown(),
        2 => draft.pick_gone(),
        3 => {
            let bit = 1 << draft.script.rng.below(32);
            draft.pick_shown().map(|leg| leg ^ bit)
        }
        _ => Some(0),
    };
    leg.unwrap_or_else(|| draft.script.fresh_leg())
}

/// An event that names a leg that is shown, or was, and is mostly refused; or a joined leg goes, with its partner.
fn further(draft: &mut Draft) {
    let record = match draft.script.rng.below(6) {
        0 => return draft.pick_shown().into_iter().for_each(|leg| draft.open(leg)),
        1 | 2 => draft.pick_shown().map(make::answer),
        3 => draft.pick_gone().map(make::release),
        4 => draft.pick_gone().map(make::answer),
        _ => draft.script.pick_joined().map(make::release),
    };
    if let Some(record) = record {
        draft.event(&record);
    }
}
