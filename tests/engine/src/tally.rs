//! How often each occurrence was met. All of them have to be met for a run to count.

use std::ops::Range;

pub use crate::seen::Seen;
use crate::seen_archive::{ArchiveSeen, LogSeen, RefusedSeen};
use crate::seen_archive_run::{ArchiveInputSeen, ArchiveRunSeen, ArchiveWordSeen};
use crate::seen_around::{AroundSeen, ExchangedSeen, InFrontSeen};
use crate::seen_carrier::CarrierSeen;
use crate::seen_couple::{CoupleSeen, SecondSeen, StandSeen};
use crate::seen_explicit::{AlikeSeen, ExecuteSeen};
use crate::seen_history::HistorySeen;
use crate::seen_inform::{InformSeen, NumberSeen};
use crate::seen_layout::LayoutSeen;
use crate::seen_leg::LegSeen;
use crate::seen_move::{MoveSeen, ToNewSeen, ToOldSeen};
use crate::seen_name::NameSeen;
use crate::seen_pin::PinSeen;
use crate::seen_related::{BesideSeen, LeftOutSeen, OneSeen};
use crate::seen_rules::{AmericanSeen, AnswerSeen, RuleSeen, TransferSeen};
use crate::seen_run::{InputSeen, RunSeen};
use crate::seen_screen::{AnswerLinesSeen, EventSeen, LineSeen, ReleaseLinesSeen, TransferLinesSeen};
use crate::seen_script::{ScriptRunSeen, ScriptSeen};
use crate::seen_type::{AnswerTypeSeen, ConsoleSeen, InformTypeSeen, OpenSeen, TransferTypeSeen, TypeSeen};
use crate::seen_verdict::{ApartSeen, IdleSeen, PairSeen};

/// Declares a list of occurrences. Its places among all begin behind those of the lists before;
/// where it is counted for each of several owners, those of the first owner come first. Where two dots
/// stand in front of a name, the macro of that name puts occurrences that several lists have.
macro_rules! occurrences {
    ($list:ident, for each $owner:ty, behind $before:expr; $($name:ident = $text:expr,)*) => {
        #[derive(Clone, Copy, PartialEq, Eq, Debug)]
        pub enum $list { $($name),* }

        impl $list {
            pub const TEXTS: &'static [&'static str] = &[$($text),*];
        }

        impl $crate::tally::Occurrence for ($owner, $list) {
            fn place(self) -> usize {
                $before + self.0 as usize * $list::TEXTS.len() + self.1 as usize
            }
        }
    };
    (
        $list:ident, for each $owner:ty, behind $before:expr;
        $($name:ident = $text:expr,)* ..$group:ident($($front:literal)?), $($names:tt)*
    ) => {
        $group! { [$list, for each $owner, behind $before; $($name = $text,)*] [$($front)?] [$($names)*] }
    };
    ($list:ident, behind $before:expr; $($names:tt)*) => {
        occurrences! { $list, for each $crate::tally::Alone, behind $before; $($names)* }

        impl $crate::tally::Occurrence for $list {
            fn place(self) -> usize {
                ($crate::tally::Alone::Alone, self).place()
            }
        }
    };
}

pub(crate) use occurrences;

/// What is counted at a place of its own.
pub trait Occurrence {
    fn place(self) -> usize;
}

/// The owner of a list that is counted once.
#[derive(Clone, Copy)]
pub enum Alone {
    Alone,
}

/// The lists in their order, each with what its texts begin with.
const LISTS: [(&str, &[&str]); 108] = [
    ("", Seen::TEXTS),
    ("", LegSeen::TEXTS),
    ("", InformSeen::TEXTS),
    ("Leg facility, ", CarrierSeen::TEXTS),
    ("Inform, ", CarrierSeen::TEXTS),
    ("Inform of alerting, ", NumberSeen::TEXTS),
    ("Inform of active, ", NumberSeen::TEXTS),
    ("European: ", RuleSeen::TEXTS),
    ("American: ", RuleSeen::TEXTS),
    ("European: ", AnswerSeen::TEXTS),
    ("American: ", AnswerSeen::TEXTS),
    ("European: EctExecute ", TransferSeen::TEXTS),
    ("European: ExplicitEctExecute ", TransferSeen::TEXTS),
    ("American: ExplicitEctExecute ", TransferSeen::TEXTS),
    ("American: ", AmericanSeen::TEXTS),
    ("European: ", PairSeen::TEXTS),
    ("American: ", PairSeen::TEXTS),
    ("European: ", IdleSeen::TEXTS),
    ("American: ", IdleSeen::TEXTS),
    ("European: ", ApartSeen::TEXTS),
    ("American: ", ApartSeen::TEXTS),
    ("Open of kind 1, ", OpenSeen::TEXTS),
    ("Open of kind 9 and type 0, ", OpenSeen::TEXTS),
    ("Open of kind 9 and type 1, ", OpenSeen::TEXTS),
    ("Open of kind 9 and type 2, ", OpenSeen::TEXTS),
    ("", TypeSeen::TEXTS),
    ("European: EctExecute transfer, ", TransferTypeSeen::TEXTS),
    ("European: ExplicitEctExecute transfer, ", TransferTypeSeen::TEXTS),
    ("American: ExplicitEctExecute transfer, ", TransferTypeSeen::TEXTS),
    ("European: ", AnswerTypeSeen::TEXTS),
    ("American: ", AnswerTypeSeen::TEXTS),
    ("", InformTypeSeen::TEXTS),
    ("European: ", ConsoleSeen::TEXTS),
    ("American: ", ConsoleSeen::TEXTS),
    ("European, first octet 01 as with 02: ", AlikeSeen::TEXTS),
    ("European, first octet 02 as with 01: ", AlikeSeen::TEXTS),
    ("American, first octet 01 as with 02: ", AlikeSeen::TEXTS),
    ("American, first octet 02 as with 01: ", AlikeSeen::TEXTS),
    ("European, EctExecute with first octet 01, invoke problem 1 with 02: ", ExecuteSeen::TEXTS),
    ("European, EctExecute with first octet 02, invoke problem 1: ", ExecuteSeen::TEXTS),
    ("short history ", HistorySeen::TEXTS),
    ("old to new: ", MoveSeen::TEXTS),
    ("new to old: ", MoveSeen::TEXTS),
    ("old to new: ", ToNewSeen::TEXTS),
    ("new to old: ", ToOldSeen::TEXTS),
    ("new from standard input, ", RunSeen::TEXTS),
    ("old from standard input, ", RunSeen::TEXTS),
    ("new by a file's name, ", RunSeen::TEXTS),
    ("old by a file's name, ", RunSeen::TEXTS),
    ("", InputSeen::TEXTS),
    ("packed: ", LayoutSeen::TEXTS),
    ("unpacked: ", LayoutSeen::TEXTS),
    ("pack: ", RefusedSeen::TEXTS),
    ("unpack: ", RefusedSeen::TEXTS),
    ("pack: ", LogSeen::TEXTS),
    ("unpack: ", ArchiveSeen::TEXTS),
    ("pack from standard input, ", ArchiveRunSeen::TEXTS),
    ("unpack from standard input, ", ArchiveRunSeen::TEXTS),
    ("pack by a file's name, ", ArchiveRunSeen::TEXTS),
    ("unpack by a file's name, ", ArchiveRunSeen::TEXTS),
    ("pack, ", ArchiveInputSeen::TEXTS),
    ("unpack, ", ArchiveInputSeen::TEXTS),
    ("", ArchiveWordSeen::TEXTS),
    ("pin: ", PinSeen::TEXTS),
    ("event with no line taken: ", EventSeen::TEXTS),
    ("event with some lines taken: ", EventSeen::TEXTS),
    ("event with all lines taken: ", EventSeen::TEXTS),
    ("screen: ", LineSeen::TEXTS),
    ("European: ", TransferLinesSeen::TEXTS),
    ("American: ", TransferLinesSeen::TEXTS),
    ("European: ", AnswerLinesSeen::TEXTS),
    ("American: ", AnswerLinesSeen::TEXTS),
    ("Release of a leg ", ReleaseLinesSeen::TEXTS),
    ("name: ", NameSeen::TEXTS),
    ("script: ", ScriptSeen::TEXTS),
    ("run: ", ScriptRunSeen::TEXTS),
    ("exchanged: a Progress accepted; ", SecondSeen::TEXTS),
    ("exchanged: a Progress, 9; ", SecondSeen::TEXTS),
    ("exchanged: a Progress, 11; ", SecondSeen::TEXTS),
    ("exchanged: a Hold accepted; ", SecondSeen::TEXTS),
    ("exchanged: a Hold, 9; ", SecondSeen::TEXTS),
    ("exchanged: a Hold, 11; ", SecondSeen::TEXTS),
    ("call state 3: ", StandSeen::TEXTS),
    ("call state 7: ", StandSeen::TEXTS),
    ("call state 4, Idle: ", StandSeen::TEXTS),
    ("call state 4, Hold Request: ", StandSeen::TEXTS),
    ("call state 4, Call Held: ", StandSeen::TEXTS),
    ("call state 4, Retrieve Request: ", StandSeen::TEXTS),
    ("call state 10, Idle: ", StandSeen::TEXTS),
    ("call state 10, Hold Request: ", StandSeen::TEXTS),
    ("call state 10, Call Held: ", StandSeen::TEXTS),
    ("call state 10, Retrieve Request: ", StandSeen::TEXTS),
    ("European: ", CoupleSeen::TEXTS),
    ("American: ", CoupleSeen::TEXTS),
    ("European: ", AroundSeen::TEXTS),
    ("American: ", AroundSeen::TEXTS),
    ("European: EctExecute right behind the two: ", InFrontSeen::TEXTS),
    ("European: ExplicitEctExecute right behind the two: ", InFrontSeen::TEXTS),
    ("American: ExplicitEctExecute right behind the two: ", InFrontSeen::TEXTS),
    ("", ExchangedSeen::TEXTS),
    ("Progress on one reference, beside it ", BesideSeen::TEXTS),
    ("Hold on one reference, beside it ", BesideSeen::TEXTS),
    ("Open of kind 1, beside it ", BesideSeen::TEXTS),
    ("Open of kind 9, beside it ", BesideSeen::TEXTS),
    ("Release, beside it ", BesideSeen::TEXTS),
    ("Facility, beside it ", BesideSeen::TEXTS),
    ("on one reference: ", OneSeen::TEXTS),
    ("", LeftOutSeen::TEXTS),
];

/// The occurrences of so many lists.
pub const fn before(list: usize) -> usize {
    let (mut sum, mut place) = (0, 0);
    while place < list {
        sum += LISTS[place].1.len();
        place += 1;
    }
    sum
}

const ALL: usize = before(LISTS.len());

pub struct Tally {
    counts: [u64; ALL],
    /// The lists that have to be met.
    lists: Range<usize>,
    pub logs: u64,
    pub events: u64,
}

/// The lists of moved logs, counted where logs are played and where the program that moves them is
/// run; those of its runs; those of archives and of the program that makes them; those of the attendant's
/// screen; and those of two events in either order.
const MOVES: usize = 41;
const RUNS: usize = 45;
const ARCHIVES: usize = 50;
const SCREENS: usize = 63;
const ORDERS: usize = 76;

impl Default for Tally {
    fn default() -> Tally {
        Tally { counts: [0; ALL], lists: 0..RUNS, logs: 0, events: 0 }
    }
}

impl Tally {
    /// For runs of the program that moves logs.
    pub fn of_moves() -> Tally {
        Tally { lists: MOVES..ARCHIVES, ..Tally::default() }
    }

    /// For runs of the program that packs and unpacks logs.
    pub fn of_archives() -> Tally {
        Tally { lists: ARCHIVES..SCREENS, ..Tally::default() }
    }

    /// For runs of the program of the attendant's console.
    pub fn of_screens() -> Tally {
        Tally { lists: SCREENS..ORDERS, ..Tally::default() }
    }

    /// For logs in either order of two events.
    pub fn of_orders() -> Tally {
        Tally { lists: ORDERS..LISTS.len(), ..Tally::default() }
    }

    pub fn add(&mut self, seen: impl Occurrence) {
        self.counts[seen.place()] += 1;
    }

    pub fn add_if(&mut self, test: bool, seen: impl Occurrence) {
        self.counts[seen.place()] += test as u64;
    }

    pub fn add_each(&mut self, seen: impl IntoIterator<Item = impl Occurrence>) {
        seen.into_iter().for_each(|seen| self.add(seen));
    }

    /// The text of each occurrence with its count.
    fn lines(&self) -> impl Iterator<Item = (String, u64)> + '_ {
        let lists = LISTS[self.lists.clone()].iter();
        let texts = lists.flat_map(|(front, texts)| texts.iter().map(move |text| format!("{front}{text}")));
        texts.zip(self.counts[before(self.lists.start)..].iter().copied())
    }

    /// One line for each occurrence, and the sums.
    pub fn print(&self) {
        for (text, count) in self.lines() {
            println!("{count:>9}  {text}");
        }
        println!("{} logs, {} events, {} occurrences", self.logs, self.events, self.lines().count());
    }

    /// The occurrences that were never met.
    pub fn missing(&self) -> Vec<String> {
        self.texts(|count| count == 0)
    }

    /// A run counts only if every occurrence was met.
    pub fn all_met(&self) -> Result<(), String> {
        let missing = self.missing();
        if missing.is_empty() {
            return Ok(());
        }
        self.print();
        Err(format!("never met: {}", missing.join("; ")))
    }

    /// Those that were.
    pub fn met(&self) -> Vec<String> {
        self.texts(|count| count > 0)
    }

    fn texts(&self, test: fn(u64) -> bool) -> Vec<String> {
        self.lines().filter(|(_, count)| test(*count)).map(|(text, _)| text).collect()
    }
}
