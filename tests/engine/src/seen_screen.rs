//! What occurs where the attendant's console plays an event. "Shown" is on a line.

use crate::attendant::{Screen, LINES};
use crate::rules::RuleSet;
use crate::tally::{before, occurrences};

/// How many lines are taken.
#[derive(Clone, Copy, PartialEq, Eq, Debug)]
pub enum Taken {
    No,
    Some,
    All,
}

impl Taken {
    pub fn of(screen: &Screen) -> Taken {
        match screen.0.iter().flatten().count() {
            0 => Taken::No,
            LINES => Taken::All,
            _ => Taken::Some,
        }
    }
}

occurrences! {
    EventSeen, for each Taken, behind before(64);
    Kind1 = "kind 1 accepted",
    Kind2 = "kind 2 accepted",
    Kind3 = "kind 3 accepted",
    Kind4 = "kind 4 accepted",
    Kind5 = "kind 5 accepted",
    Kind6 = "kind 6 accepted",
    Kind7 = "kind 7 accepted",
    Kind8 = "kind 8 accepted",
    Kind9 = "kind 9 accepted",
    Returned3 = "3",
    Returned4 = "4",
    Returned5 = "5",
    Returned6 = "6",
    Returned7 = "7",
    Returned8 = "8",
    Returned9 = "9",
    Returned10 = "10",
    Returned11 = "11",
    Returned12 = "12",
}

occurrences! {
    LineSeen, behind before(67);
    EmptyLowest = "a line becomes empty, others above it alone",
    EmptyBetween = "a line becomes empty, others below and above it",
    EmptyHighest = "a line becomes empty, others below it alone",
    EmptyAll = "all lines become empty",
    EmptyFull = "a line becomes empty, all taken before",
    EmptyTwo = "two lines become empty, others between them",
    EmptyTwoBeside = "two lines beside each other become empty",
    EmptyPending = "a line becomes empty, a leg on the board got 18 before",
    Changed = "one line shows its leg in another way",
    ChangedTwo = "two lines show their legs in another way",
    Again = "a leg shown before is opened again, its line empty",
    AgainTaken = "a leg shown before is opened again, its line taken",
    AgainEvent = "accepted, a leg shown before is on the board and on no line",
    ProgressShown = "Progress of a call whose leg is shown",
    HoldShown = "Hold of a call whose leg is shown",
    FacilityShown = "Facility without a transfer on a call whose leg is shown",
    InformShown = "Inform of a call whose leg is shown",
    PassShown = "Leg facility of a leg that is shown, passed on",
    Open5Shown = "5: Open of a leg that is shown",
    Open6Shown = "6: Open of a leg that is shown",
    Release10Gone = "10: Release of a leg shown before",
    Answer10Gone = "10: Answer of a leg shown before",
    Facility10Gone = "10: Leg facility of a leg shown before",
    Answer11User = "11: Answer of a leg that is shown with the user",
    Answer11Joined = "11: Answer of a leg that is shown joined",
    Facility11Shown = "11: Leg facility of a leg that is shown",
    Progress11Shown = "11: Progress of a call whose leg is shown",
    Hold11Shown = "11: Hold of a call whose leg is shown",
    Facility12Shown = "12: Leg facility of a leg that is shown",
}

occurrences! {
    TransferLinesSeen, for each RuleSet, behind before(68);
    Both = "transfer, both shown, neither alerts",
    BothNamedAlerts = "transfer, both shown, the named call's alerts",
    BothOtherAlerts = "transfer, both shown, the other alerts",
    Named = "transfer, the named call's shown alone, neither alerts",
    NamedAlerts = "transfer, the named call's shown alone, which alerts",
    NamedOtherAlerts = "transfer, the named call's shown alone, the other alerts",
    Other = "transfer, the other shown alone, neither alerts",
    OtherNamedAlerts = "transfer, the other shown alone, the named call's alerts",
    OtherAlerts = "transfer, the other shown alone, which alerts",
    Neither = "transfer, neither shown, neither alerts",
    NeitherNamedAlerts = "transfer, neither shown, the named call's alerts",
    NeitherOtherAlerts = "transfer, neither shown, the other alerts",
    NamedLower = "transfer, the named call's on the lower line",
    NamedHigher = "transfer, the named call's on the higher line",
    Third = "transfer, both shown and a third",
    Full = "transfer, both shown and all lines taken",
}

occurrences! {
    AnswerLinesSeen, for each RuleSet, behind before(70);
    Both = "Answer, both shown",
    Answering = "Answer, the answering party shown alone",
    Partner = "Answer, the partner shown alone",
    Neither = "Answer, neither shown",
    Third = "Answer, both shown and a third joined and alerting",
}

occurrences! {
    ReleaseLinesSeen, behind before(72);
    User = "with the user, shown",
    UserNot = "with the user, not shown, others are",
    Both = "joined, both shown, neither alerts",
    BothOwn = "joined, both shown, its leg alerts",
    BothPartner = "joined, both shown, the partner alerts",
    Own = "joined, shown alone, neither alerts",
    OwnOwn = "joined, shown alone, its leg alerts",
    OwnPartner = "joined, shown alone, the partner alerts",
    Partner = "joined, the partner shown alone, neither alerts",
    PartnerOwn = "joined, the partner shown alone, its leg alerts",
    PartnerPartner = "joined, the partner shown alone, the partner alerts",
    Neither = "joined, neither shown, neither alerts",
    NeitherOwn = "joined, neither shown, its leg alerts",
    NeitherPartner = "joined, neither shown, the partner alerts",
}
