//! The attendant's console: a screen whose lines show the legs that the attendant follows, and names.

use std::fmt;

use crate::board::{Board, Row, Standing};
use crate::event::{event, Answer};
use crate::rows::board_sound;

pub const LINES: usize = 16;
const COMMA: u8 = b',';

/// How a line shows a leg.
#[derive(Clone, Copy, PartialEq, Eq, Debug)]
pub enum Way {
    User,
    Joined,
    Alerting,
}

#[derive(Clone, Copy, PartialEq, Eq, Debug)]
pub struct Shown {
    pub leg: u32,
    pub way: Way,
}

impl Shown {
    /// A leg as the board has it, if it does.
    pub fn on(board: &Board, leg: u32) -> Option<Shown> {
        board.rows.iter().filter_map(Shown::of).find(|shown| shown.leg == leg)
    }

    /// The leg of a row. An empty one has none, not even leg 0.
    pub fn of(row: &Row) -> Option<Shown> {
        let way = match row.standing {
            Standing::Empty => return None,
            Standing::Served(_) => Way::User,
            Standing::Joined { alerts: false, .. } => Way::Joined,
            Standing::Joined { alerts: true, .. } => Way::Alerting,
        };
        Some(Shown { leg: row.leg, way })
    }
}

/// The lines, the lowest first.
#[derive(Clone, Copy, PartialEq, Eq, Debug)]
pub struct Screen(pub [Option<Shown>; LINES]);

impl Screen {
    pub const EMPTY: Screen = Screen([None; LINES]);

    /// The lowest line that shows a leg, counted from 0.
    pub fn line_of(&self, leg: u32) -> Option<usize> {
        self.0.iter().position(|line| line.is_some_and(|shown| shown.leg == leg))
    }

    pub fn lowest_empty(&self) -> Option<usize> {
        self.0.iter().position(Option::is_none)
    }

    /// Shows what is shown as a board has it; what it does not have is shown no more.
    pub fn redraw(&mut self, board: &Board) {
        for line in &mut self.0 {
            *line = line.and_then(|shown| Shown::on(board, shown.leg));
        }
    }

    fn pinned(&mut self, board: &Board, leg: u32) -> Result<(), u8> {
        if !board_sound(board) {
            return Err(2);
        }
        let shown = Shown::on(board, leg).ok_or(16)?;
        if self.line_of(leg).is_some() {
            return Err(17);
        }
        let line = self.lowest_empty().ok_or(18)?;
        self.0[line] = Some(shown);
        Ok(())
    }
}

/// What a script asks of a console. The right one is the screen itself; the tests have wrong ones.
pub trait Console {
    fn screen(&self) -> &Screen;

    /// Follows a leg from now on.
    fn pin(&mut self, board: &Board, leg: u32) -> u8;

    /// Plays an event into a board. A refusal changes neither board nor buffer nor screen.
    fn play(&mut self, board: &mut Board, record: &[u8], buffer: &mut [u8]) -> Answer;

    /// The name of a party, from its directory line and its digits.
    fn name<'a>(&self, line: &'a [u8], digits: &'a [u8]) -> &'a [u8] {
        name(line, digits)
    }
}

impl Console for Screen {
    fn screen(&self) -> &Screen {
        self
    }

    fn pin(&mut self, board: &Board, leg: u32) -> u8 {
        self.pinned(board, leg).err().unwrap_or(0)
    }

    fn play(&mut self, board: &mut Board, record: &[u8], buffer: &mut [u8]) -> Answer {
        let answer = event(board, record, buffer);
        if answer.returned == 0 {
            self.redraw(board);
        }
        answer
    }
}

/// The line before its first comma, or the digits where nothing stands there.
pub fn name<'a>(line: &'a [u8], digits: &'a [u8]) -> &'a [u8] {
    let end = line.iter().position(|&octet| octet == COMMA).unwrap_or(line.len());
    if end == 0 {
        digits
    } else {
        &line[..end]
    }
}

/// The lines that are not empty, each with its number from 1, or a dash.
impl fmt::Display for Screen {
    fn fmt(&self, text: &mut fmt::Formatter) -> fmt::Result {
        let mut between = "";
        for (number, line) in (1..).zip(self.0) {
            let Some(Shown { leg, way }) = line else { continue };
            let way = match way {
                Way::User => "user",
                Way::Joined => "joined",
                Way::Alerting => "alerting",
            };
            write!(text, "{between}{number}:{leg}:{way}")?;
            between = " ";
        }
        text.write_str(if between.is_empty() { "-" } else { "" })
    }
}
