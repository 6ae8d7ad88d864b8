//! What stands around two events that are exchanged, and what occurs in whole logs of them. "Right behind" and
//! "right in front" are the records beside the two.

use crate::notice_transfer::Asked;
use crate::rules::RuleSet;
use crate::seen_options::options;
use crate::tally::{before, occurrences};

occurrences! {
    AroundSeen, for each RuleSet, behind before(94);
    BehindOpenFirst = "right behind the Open of the first's call",
    BehindOpenSecond = "right behind the Open of the second's call",
    BehindReleaseFirst = "right behind the Release of the first's call",
    BehindReleaseSecond = "right behind the Release of the second's call",
    BehindTransferFirst = "right behind the transfer of the first's call",
    BehindTransferSecond = "right behind the transfer of the second's call",
    BehindTransferBoth = "right behind the transfer of both",
    BehindLinkFirst = "right behind the LinkId of the first's call",
    BehindLinkSecond = "right behind the LinkId of the second's call",
    BehindOwnFirst = "right behind a Progress or Hold of the first's call that was accepted",
    BehindOwnSecond = "right behind a Progress or Hold of the second's call that was accepted",
    BehindRefusedFirst = "right behind a Progress or Hold of the first's call that was refused",
    BehindRefusedSecond = "right behind a Progress or Hold of the second's call that was refused",
    BehindInform = "right behind an Inform that was told",
    BehindAnswer = "right behind an Answer that was accepted",
    InFrontOpenFirst = "9, right in front of the Open of the first's reference",
    InFrontOpenSecond = "9, right in front of the Open of the second's reference",
    InFrontReleaseFirst = "both accepted, right in front of the Release of the first's call",
    InFrontReleaseSecond = "both accepted, right in front of the Release of the second's call",
    InFrontLinkFirst = "both accepted, right in front of the LinkId of the first's call",
    InFrontLinkSecond = "both accepted, right in front of the LinkId of the second's call",
    InFrontOwnFirst = "both accepted, right in front of a third of the first's call that is accepted",
    InFrontOwnSecond = "both accepted, right in front of a third of the second's call that is accepted",
    InFrontInformFirst = "both accepted, right in front of the Inform that the first lets pass",
    InFrontInformSecond = "both accepted, right in front of the Inform that the second lets pass",
    InFrontAnswer = "both accepted, right in front of an Answer that is accepted",
    LaterBoth = "both accepted, the calls transferred with each other, but not right behind",
    LaterFirst = "both accepted, the first's call transferred with a third",
    LaterSecond = "both accepted, the second's call transferred with a third",
    LogStart = "the first two records",
    LogEnd = "the last two records",
    InFrontCut = "right in front of a record that is cut",
    InFrontUnknown = "right in front of an unknown kind",
    Figures2 = "records 9 and 10",
    Figures3 = "records 99 and 100",
}

occurrences! {
    InFrontSeen, for each Asked, behind before(96);
    NamedFirst = "the first's call named, neither alerts",
    NamedSecond = "the second's call named, neither alerts",
    FirstNamedAlerts = "the first's call named, which alerts",
    FirstNamedOther = "the first's call named, the other alerts",
    SecondNamedAlerts = "the second's call named, which alerts",
    SecondNamedOther = "the second's call named, the other alerts",
    ProgressProgress = "a Progress and a Progress",
    ProgressHold = "a Progress and a Hold",
    HoldProgress = "a Hold and a Progress",
    HoldHold = "a Hold and a Hold",
    NeedsBoth = "no transfer without either",
}

occurrences! {
    ExchangedSeen, behind before(99);
    ..options(""),
    One = "one place exchanged",
    Two = "two places exchanged",
    Three = "three places exchanged",
    Four = "four to nine places exchanged",
    Ten = "ten places and more exchanged",
    AllThere = "each two exchanged that could be, or one of them with another",
    SomeLeft = "two left as they were that could be exchanged",
    Touching = "two places with no record between them",
    TouchingAccepted = "four records with no record between them, all accepted",
    Few = "at most ten records",
    Many = "more than a hundred records",
}
