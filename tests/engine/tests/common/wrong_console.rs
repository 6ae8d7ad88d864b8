//! Consoles that are wrong in one point: what is not given is right.
#![allow(dead_code)]

use engine::attendant::{name, Console, Screen, Shown};
use engine::attended::text;
use engine::board::{Board, Standing};
use engine::event::{event, Answer};
use engine::rng::Rng;
use engine::screen_scripts::script;
use engine::screened::watch;
use engine::tally::Tally;

/// An event that was played.
pub struct Played<'a> {
    pub before: &'a Board,
    pub after: &'a Board,
    pub record: &'a [u8],
    pub returned: u8,
}

pub type Pin = fn(&mut Wrong, &Board, u32) -> u8;
pub type Redraw = fn(&mut Wrong, &Played);
pub type Name = for<'a> fn(&'a [u8], &'a [u8]) -> &'a [u8];

#[derive(Clone)]
pub struct Wrong {
    pub screen: Screen,
    /// What some remember: lines, or legs.
    pub kept: Vec<(usize, u32)>,
    pub pin: Pin,
    pub redraw: Redraw,
    pub name: Name,
}

impl Wrong {
    pub const RIGHT: Wrong =
        Wrong { screen: Screen::EMPTY, kept: Vec::new(), pin: right_pin, redraw: right_redraw, name };

    pub fn pins(pin: Pin) -> Wrong {
        Wrong { pin, ..Wrong::RIGHT }
    }

    pub fn redraws(redraw: Redraw) -> Wrong {
        Wrong { redraw, ..Wrong::RIGHT }
    }

    pub fn names(name: Name) -> Wrong {
        Wrong { name, ..Wrong::RIGHT }
    }

    pub fn both(pin: Pin, redraw: Redraw) -> Wrong {
        Wrong { pin, redraw, ..Wrong::RIGHT }
    }

    pub fn full(&self) -> bool {
        self.screen.lowest_empty().is_none()
    }

    /// Each line that is not empty by this; none for one that becomes empty.
    pub fn each(&mut self, line: impl Fn(Shown) -> Option<Shown>) {
        self.screen.0.iter_mut().for_each(|shown| *shown = shown.and_then(&line));
    }
}

pub fn right_pin(wrong: &mut Wrong, board: &Board, leg: u32) -> u8 {
    wrong.screen.pin(board, leg)
}

pub fn right_redraw(wrong: &mut Wrong, played: &Played) {
    if played.returned == 0 {
        wrong.screen.redraw(played.after);
    }
}

impl Console for Wrong {
    fn screen(&self) -> &Screen {
        &self.screen
    }

    fn pin(&mut self, board: &Board, leg: u32) -> u8 {
        (self.pin)(self, board, leg)
    }

    fn play(&mut self, board: &mut Board, record: &[u8], buffer: &mut [u8]) -> Answer {
        let before = board.clone();
        let answer = event(board, record, buffer);
        let played = Played { before: &before, after: board, record, returned: answer.returned };
        (self.redraw)(self, &played);
        answer
    }

    fn name<'a>(&self, line: &'a [u8], digits: &'a [u8]) -> &'a [u8] {
        (self.name)(line, digits)
    }
}

pub const ANSWER: u8 = 6;
pub const RELEASE: u8 = 4;

pub fn scripts() -> Vec<Vec<u8>> {
    let mut rng = Rng::new(91);
    (0..500).map(|_| script(&mut rng)).collect()
}

/// In what each is wrong, with the console.
pub fn told_apart(wrongs: impl IntoIterator<Item = (&'static str, Wrong)>) {
    let scripts = scripts();
    let right: Vec<String> = scripts.iter().map(|script| text(script, Screen::EMPTY)).collect();
    for (what, wrong) in wrongs {
        let differs =
            scripts.iter().zip(&right).position(|(script, right)| text(script, wrong.clone()) != *right);
        let Some(place) = differs else { panic!("{what}: no difference") };
        let judged = watch(&scripts[place], wrong, &mut Tally::of_screens());
        assert!(judged.is_err(), "{what}: not at fault");
    }
}

pub fn leg_in(record: &[u8]) -> Option<u32> {
    let octets = match record {
        [1 | 9, _, _, octets @ ..] => octets,
        [4 | 6 | 7, octets @ ..] => octets,
        _ => return None,
    };
    octets.first_chunk().map(|leg| u32::from_be_bytes(*leg))
}

pub fn partner(board: &Board, leg: u32) -> Option<u32> {
    board.rows.iter().find_map(|row| match row.standing {
        Standing::Joined { partner, .. } if row.leg == leg => Some(partner),
        _ => None,
    })
}

/// Accepted events alone.
pub fn accepted(wrong: &mut Wrong, played: &Played, line: impl Fn(Shown) -> Option<Shown>) {
    if played.returned == 0 {
        wrong.each(line);
    }
}

pub fn gone_kept(wrong: &mut Wrong, played: &Played) {
    accepted(wrong, played, |shown| Some(Shown::on(played.after, shown.leg).unwrap_or(shown)));
}
