//! What the items of a script so far have said of legs.

use crate::attendant::{Screen, Way};
use crate::board::Standing;
use crate::event::{OPEN, OPEN_TYPED, RELEASE};
use crate::items::Item;
use crate::screened::{row_of, Moment};

/// A leg that was pinned on a line, and is on the board since, or was until it or its partner was released.
#[derive(Clone, Copy, PartialEq, Eq, Debug)]
pub struct Followed {
    pub leg: u32,
    pub line: usize,
    pub pinned: Way,
    pub with_partner: bool,
}

#[derive(Default)]
pub struct Memory {
    pub followed: Vec<Followed>,
    /// Those that have gone and were not pinned again.
    pub gone: Vec<Followed>,
    pub opened: Vec<u32>,
    /// Those whose pin got 16, and those whose pin got 18.
    pub absent: Vec<u32>,
    pub full: Vec<u32>,
}

impl Memory {
    pub fn gone(&self, leg: u32) -> Option<&Followed> {
        self.gone.iter().find(|gone| gone.leg == leg)
    }

    pub fn keep(&mut self, item: &Item, moment: &Moment) {
        match (*item, moment.returned) {
            (Item::Pin(leg), 0) => self.follow(leg, moment),
            (Item::Pin(leg), 16) => self.absent.push(leg),
            (Item::Pin(leg), 18) => self.full.push(leg),
            (Item::Event(&[RELEASE, a, b, c, d]), 0) => {
                self.released(u32::from_be_bytes([a, b, c, d]), moment)
            }
            (Item::Event(&[OPEN | OPEN_TYPED, _, _, a, b, c, d, ..]), 0) => {
                self.opened.push(u32::from_be_bytes([a, b, c, d]));
            }
            _ => {}
        }
    }

    /// From the lowest line on which no leg is followed.
    fn follow(&mut self, leg: u32, moment: &Moment) {
        let free = |line: &usize| self.followed.iter().all(|followed| followed.line != *line);
        let line = (0..).find(free).unwrap_or(0);
        let alerts = row_of(moment.before, leg).map(|(_, row)| row.standing);
        let pinned = match alerts {
            Some(Standing::Joined { alerts: false, .. }) => Way::Joined,
            Some(Standing::Joined { alerts: true, .. }) => Way::Alerting,
            _ => Way::User,
        };
        self.gone.retain(|gone| gone.leg != leg);
        self.followed.push(Followed { leg, line, pinned, with_partner: false });
    }

    /// With the leg goes its partner's.
    fn released(&mut self, leg: u32, moment: &Moment) {
        let partner = match row_of(moment.before, leg).map(|(_, row)| row.standing) {
            Some(Standing::Joined { partner, .. }) => Some(partner),
            _ => None,
        };
        for (leg, with_partner) in [(Some(leg), false), (partner, true)] {
            let goes = |followed: &Followed| Some(followed.leg) == leg;
            let gone = self.followed.iter().copied().filter(goes);
            self.gone.extend(gone.map(|followed| Followed { with_partner, ..followed }));
            self.followed.retain(|followed| !goes(followed));
        }
    }

    /// Whether the lines are just those of the legs that are followed.
    pub fn agrees(&self, screen: &Screen) -> bool {
        let shown = |followed: &Followed| {
            screen.0.get(followed.line).copied().flatten().is_some_and(|shown| shown.leg == followed.leg)
        };
        self.followed.iter().all(shown) && self.followed.len() == screen.0.iter().flatten().count()
    }
}
