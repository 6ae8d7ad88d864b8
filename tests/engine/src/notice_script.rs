//! What occurs in a script for the attendant's console as a whole, and at its end.

use crate::attendant::Screen;
use crate::board::Standing;
use crate::event::body_length;
use crate::items::{Item, NAME};
use crate::notice_cut;
use crate::screened::Moment;
use crate::seen_bad::by_cut;
use crate::seen_options::by_options;
use crate::seen_screen::Taken;
use crate::seen_script::ScriptSeen::{self, *};
use crate::tally::Tally;

pub fn options(script: &[u8], tally: &mut Tally) {
    let &[first, second, ref items @ ..] = script else {
        return tally.add(if script.is_empty() { NoOctets } else { OneOctet });
    };
    let bad = match (first, second) {
        (0..=2, 0..=3) => {
            tally.add(by_options!(ScriptSeen)[usize::from(first)][usize::from(second)]);
            return tally.add_if(items.is_empty(), Alone);
        }
        (0..=2, 4) => Second4,
        (0..=2, _) => SecondElse,
        (_, 4..) => BothBad,
        (3, _) => First3,
        (255, _) => FirstFF,
        _ => FirstElse,
    };
    tally.add(bad);
    tally.add_if(!items.is_empty(), BadItems);
}

/// What a script has had so far.
#[derive(Default)]
pub struct Whole {
    pub items: u64,
    pins: bool,
    names: bool,
    events: bool,
    line: bool,
    all_lines: bool,
    more_legs: bool,
}

impl Whole {
    pub fn item(&mut self, item: &Item, moment: &Moment) {
        self.items += 1;
        match item {
            Item::Pin(_) => self.pins = true,
            Item::Name { .. } => self.names = true,
            Item::Event(_) => self.events = true,
            Item::Cut => {}
        }
        let taken = Taken::of(moment.is);
        self.line |= taken != Taken::No;
        self.all_lines |= taken == Taken::All;
        self.more_legs |= moment.after.rows.iter().filter(|row| row.standing != Standing::Empty).count()
            > moment.is.0.len();
    }

    pub fn notice(&self, screen: &Screen, tally: &mut Tally) {
        tally.add_each(match (self.pins, self.names, self.events) {
            (true, false, false) => Some(PinsAlone),
            (false, true, false) => Some(NamesAlone),
            (false, false, true) => Some(EventsAlone),
            (true, true, true) => Some(AllThree),
            _ => None,
        });
        tally.add_if(self.pins && self.events && !self.line, NoLine);
        tally.add_if(self.all_lines, AllLines);
        tally.add_if(self.pins && self.more_legs, MoreLegs);
        let wide = screen.0.iter().all(|line| line.is_some_and(|shown| shown.leg >= 1_000_000_000));
        tally.add_if(wide, Wide);
        tally.add_each(match self.items {
            10..100 => Some(Figures2),
            100..1_000 => Some(Figures3),
            1_000..10_000 => Some(Figures4),
            10_000.. => Some(Figures5),
            _ => None,
        });
    }
}

/// An item that is cut or of an unknown kind, with what is there of it and behind it.
pub fn last(rest: &[u8], item: &Item, moment: &Moment, whole: &Whole, tally: &mut Tally) {
    let first = whole.items == 1;
    match (*item, moment.returned) {
        (Item::Cut, _) => {
            tally.add(cut(rest));
            tally.add_if(first, CutFirst);
            tally.add_if(Taken::of(moment.is) != Taken::No, CutShown);
        }
        (Item::Event(record), 3) => {
            let body = body_length(record[0]);
            tally.add(notice_cut::place(record, body, by_cut!(ScriptSeen)));
            tally.add_if(notice_cut::wrong_field(record), CutField);
        }
        (Item::Event(record), 4) => {
            tally.add(match record[0] {
                10 => Unknown10,
                254 => Unknown254,
                128.. => Unknown128,
                _ => UnknownElse,
            });
            tally.add_if(first, UnknownFirst);
            tally.add(if rest.len() == 1 { UnknownLast } else { UnknownItems });
        }
        _ => {}
    }
}

/// Where a pin or a name is cut.
fn cut(rest: &[u8]) -> ScriptSeen {
    match *rest {
        [NAME] => CutNameCount,
        [NAME, count, ref line @ ..] if line.len() < count.into() => CutNameLine,
        [NAME, count, ref line @ ..] if line.len() == count.into() => CutNameSecond,
        [NAME, ..] => CutNameDigits,
        _ => [CutPin0, CutPin1, CutPin2, CutPin3][(rest.len() - 1).min(3)],
    }
}
