//! What holds of every item of a script: judged by rows and lines, and by which legs were pinned and have been on
//! the board since, beside the console.

use crate::attendant::{Console, Screen, Shown, Way, LINES};
use crate::board::{Board, Row, Standing};
use crate::items::{next_item, Item};
use crate::memory::Memory;
use crate::notice_script::Whole;
use crate::play::start;
use crate::reply::BUFFER;
use crate::tally::Tally;
use crate::{notice_name, notice_pin, notice_screen, notice_script};

/// An item, and what it found and left.
pub struct Moment<'a> {
    pub before: &'a Board,
    pub after: &'a Board,
    pub was: &'a Screen,
    pub is: &'a Screen,
    pub returned: u8,
}

pub fn row_of(board: &Board, leg: u32) -> Option<(usize, &Row)> {
    board.rows.iter().enumerate().find(|(_, row)| row.leg == leg && row.standing != Standing::Empty)
}

/// Plays a script through a console that begins with an empty screen, and tallies it; says what is at fault.
pub fn watch(script: &[u8], mut console: impl Console, tally: &mut Tally) -> Result<(), String> {
    notice_script::options(script, tally);
    let Some((mut board, mut rest)) = start(script) else { return Ok(()) };
    let (mut memory, mut whole) = (Memory::default(), Whole::default());
    while let Some((item, after)) = next_item(rest) {
        let (before, was) = (board.clone(), *console.screen());
        let returned = match item {
            Item::Pin(leg) => console.pin(&board, leg),
            Item::Event(record) => console.play(&mut board, record, &mut [0; BUFFER]).returned,
            Item::Name { line, digits } => u8::from(console.name(line, digits) != part(line, digits)),
            Item::Cut => 0,
        };
        let moment = Moment { before: &before, after: &board, was: &was, is: console.screen(), returned };
        whole.item(&item, &moment);
        tally.events += 1;
        let fault = |what| format!("item {}: {what}", whole.items);
        stands(&item, &moment).map_err(fault)?;
        match item {
            Item::Pin(leg) => notice_pin::notice(leg, &moment, &memory, tally),
            Item::Event(record) => notice_screen::notice(record, &moment, &memory, tally),
            Item::Name { line, digits } => notice_name::notice(line, digits, moment.is, tally),
            Item::Cut => {}
        }
        memory.keep(&item, &moment);
        if !memory.agrees(moment.is) {
            return Err(fault("the lines are not those of the legs pinned".to_string()));
        }
        notice_script::last(rest, &item, &moment, &whole, tally);
        rest = after;
    }
    whole.notice(console.screen(), tally);
    Ok(())
}

/// What is due by the rows that have a leg and the lines that show it.
fn stands(item: &Item, moment: &Moment) -> Result<(), String> {
    let Moment { before, after, was, is, returned } = *moment;
    let good = match *item {
        Item::Pin(leg) => returned == due(before, was, leg) && pinned(moment, leg),
        Item::Event(_) if returned == 0 => was.0.iter().zip(&is.0).all(|(was, is)| {
            let kept = was.filter(|shown| row_of(after, shown.leg).is_some());
            kept.map(|shown| shown.leg) == is.map(|shown| shown.leg)
        }),
        Item::Event(_) => (is, after) == (was, before),
        Item::Name { .. } | Item::Cut => (is, returned) == (was, 0),
    };
    if !good {
        return Err(format!("{item:02x?} returned {returned}\n{was}\n{is}"));
    }
    let right = is.0.iter().flatten().all(|shown| shows_right(after, is, shown));
    right.then_some(()).ok_or(format!("a line does not show what the board has\n{is}"))
}

fn due(board: &Board, screen: &Screen, leg: u32) -> u8 {
    let lines = |test: &dyn Fn(&Shown) -> bool| screen.0.iter().flatten().filter(|shown| test(shown)).count();
    match (row_of(board, leg), lines(&|shown| shown.leg == leg), lines(&|_| true)) {
        (None, _, _) => 16,
        (_, 1.., _) => 17,
        (_, _, LINES) => 18,
        _ => 0,
    }
}

/// Just one line differs, the first that was empty; none where the pin was refused.
fn pinned(moment: &Moment, leg: u32) -> bool {
    let (was, is) = (&moment.was.0, &moment.is.0);
    let differ: Vec<usize> = (0..LINES).filter(|&line| was[line] != is[line]).collect();
    match (moment.returned, differ.as_slice()) {
        (0, &[line]) => {
            was[line].is_none()
                && was[..line].iter().all(Option::is_some)
                && is[line].is_some_and(|shown| shown.leg == leg)
        }
        (0, _) => false,
        _ => differ.is_empty(),
    }
}

/// On one line alone, as its row has it; a joined leg agrees with its partner's line, if there is one.
fn shows_right(board: &Board, screen: &Screen, shown: &Shown) -> bool {
    let lines = |leg: u32| screen.0.iter().flatten().filter(move |other| other.leg == leg);
    let Some((_, row)) = row_of(board, shown.leg) else { return false };
    let way = match row.standing {
        Standing::Joined { partner, alerts } => {
            let right =
                lines(partner).all(|other| other.way != Way::User && (other.way != shown.way || !alerts));
            right && shown.way == if alerts { Way::Alerting } else { Way::Joined }
        }
        _ => shown.way == Way::User,
    };
    way && lines(shown.leg).count() == 1
}

/// The name by splitting the line.
fn part<'a>(line: &'a [u8], digits: &'a [u8]) -> &'a [u8] {
    line.split(|&octet| octet == b',').next().filter(|part| !part.is_empty()).unwrap_or(digits)
}
