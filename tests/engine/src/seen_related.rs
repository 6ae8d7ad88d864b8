//! What comes of two records that the request leaves out, played in either order: two on one reference, or a Progress
//! or a Hold beside an event of another kind.

use crate::tally::{before, occurrences};

/// The other of the two.
#[derive(Clone, Copy, PartialEq, Eq, Debug)]
pub enum Beside {
    Progress,
    Hold,
    Open,
    OpenTyped,
    Release,
    Facility,
}

occurrences! {
    BesideSeen, for each Beside, behind before(100);
    ProgressInFront = "a Progress in front, other answers",
    ProgressBehind = "a Progress behind, other answers",
    ProgressSame = "a Progress, all the same",
    HoldInFront = "a Hold in front, other answers",
    HoldBehind = "a Hold behind, other answers",
    HoldSame = "a Hold, all the same",
}

occurrences! {
    OneSeen, behind before(106);
    Both = "0 and 0, in the other order 0 and 0",
    BothOrFirst = "0 and 0, in the other order 0 and 11",
    BothOrLast = "0 and 0, in the other order 11 and 0",
    FirstOrBoth = "0 and 11, in the other order 0 and 0",
    LastOrBoth = "11 and 0, in the other order 0 and 0",
    FirstOrFirst = "0 and 11, in the other order 0 and 11",
    FirstAlone = "0 and 11, in the other order 11 and 0",
    SecondAlone = "11 and 0, in the other order 0 and 11",
    Neither = "11 and 11, in the other order 11 and 11",
    Absent = "9 and 9, in the other order 9 and 9",
    Equal = "equal records, 0 and 11",
    OtherBoard = "other answers and another board",
    SameBoard = "other answers and the same board",
}

occurrences! {
    LeftOutSeen, behind before(107);
    FacilityOctets = "Facility beside a Progress or a Hold: the same numbers, other octets",
    FacilityNumbers = "Facility beside a Progress or a Hold: other numbers",
    FacilityCounts = "Facility beside a Progress or a Hold: other counts at the end",
    ReleaseSameBoard = "Release beside a Progress or a Hold: other answers and the same board",
    InformOther = "Inform beside a Progress, other answers",
    InformProgress = "Inform beside a Progress, all the same",
    InformHold = "Inform told beside an accepted Hold of its call, all the same",
    AnswerProgress = "Answer accepted beside an accepted Progress, all the same",
    AnswerHold = "Answer accepted beside an accepted Hold, all the same",
    PassedProgress = "Leg facility passed on beside an accepted Progress, all the same",
    PassedHold = "Leg facility passed on beside an accepted Hold, all the same",
}
