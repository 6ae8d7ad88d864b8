//! What occurs where two Progress or Hold events of different references are exchanged: which two they are, and the
//! call that each of them names.

use crate::board::{Aux, Call, CallState};
use crate::rules::RuleSet;
use crate::tally::{before, occurrences};

/// What the first of the two is, and what it returns.
#[derive(Clone, Copy, PartialEq, Eq, Debug)]
pub enum Came {
    Progress0,
    Progress9,
    Progress11,
    Hold0,
    Hold9,
    Hold11,
}

occurrences! {
    SecondSeen, for each Came, behind before(76);
    Progress0 = "a Progress accepted",
    Progress9 = "a Progress, 9",
    Progress11 = "a Progress, 11",
    Hold0 = "a Hold accepted",
    Hold9 = "a Hold, 9",
    Hold11 = "a Hold, 11",
}

/// The states of a call, as it is in front of the two.
#[derive(Clone, Copy, PartialEq, Eq, Debug)]
pub enum Stand {
    Proceeding,
    Received,
    DeliveredIdle,
    DeliveredRequest,
    DeliveredHeld,
    DeliveredRetrieve,
    ActiveIdle,
    ActiveRequest,
    ActiveHeld,
    ActiveRetrieve,
}

impl Stand {
    pub fn of(call: &Call) -> Stand {
        use Stand::*;
        match (call.state, call.aux) {
            (CallState::Proceeding, _) => Proceeding,
            (CallState::Received, _) => Received,
            (CallState::Delivered, Aux::Idle) => DeliveredIdle,
            (CallState::Delivered, Aux::HoldRequest) => DeliveredRequest,
            (CallState::Delivered, Aux::Held) => DeliveredHeld,
            (CallState::Delivered, Aux::RetrieveRequest) => DeliveredRetrieve,
            (CallState::Active, Aux::Idle) => ActiveIdle,
            (CallState::Active, Aux::HoldRequest) => ActiveRequest,
            (CallState::Active, Aux::Held) => ActiveHeld,
            (CallState::Active, Aux::RetrieveRequest) => ActiveRetrieve,
        }
    }
}

occurrences! {
    StandSeen, for each Stand, behind before(82);
    First4 = "Progress to 4, the first of the two",
    First10 = "Progress to 10, the first of the two",
    FirstIdle = "Hold to Idle, the first of the two",
    FirstRequest = "Hold to Hold Request, the first of the two",
    FirstHeld = "Hold to Call Held, the first of the two",
    FirstRetrieve = "Hold to Retrieve Request, the first of the two",
    Second4 = "Progress to 4, the second of the two",
    Second10 = "Progress to 10, the second of the two",
    SecondIdle = "Hold to Idle, the second of the two",
    SecondRequest = "Hold to Hold Request, the second of the two",
    SecondHeld = "Hold to Call Held, the second of the two",
    SecondRetrieve = "Hold to Retrieve Request, the second of the two",
}

occurrences! {
    CoupleSeen, for each RuleSet, behind before(92);
    TwinsBoth = "references that differ in the top bit alone, both of calls",
    TwinsFirst = "references that differ in the top bit alone, the first alone of a call",
    TwinsSecond = "references that differ in the top bit alone, the second alone of a call",
    TwinsNone = "references that differ in the top bit alone, neither of a call",
    TwinsAccepted = "references that differ in the top bit alone, both accepted",
    OneBit = "references that differ in another bit alone",
    HighOctet = "references of one high octet, both accepted",
    LowOctet = "references of one low octet, both accepted",
    SameButReference = "records that differ in the reference alone, both accepted",
    SameOtherwise = "records that differ in the reference alone, one of them accepted",
    Mixed = "both accepted, otherwise in the other order if both were on the first's reference",
    MixedRefused = "one accepted, otherwise in the other order if both were on the first's reference",
    LowerReference = "both accepted, the lower reference first",
    HigherReference = "both accepted, the higher reference first",
    LowerLeg = "both accepted, the lower leg first",
    HigherLeg = "both accepted, the higher leg first",
    LowerRow = "both accepted, the lower row first",
    HigherRow = "both accepted, the higher row first",
    NextRows = "both accepted, rows beside each other",
    RowsBetween = "both accepted, taken rows between",
    LowestRow = "both accepted, the first in the lowest row",
    LastFirst = "both accepted, the first in the last row",
    LastSecond = "both accepted, the second in the last row",
    LinkFirst = "both accepted, the first's call alone has a LinkId",
    LinkSecond = "both accepted, the second's call alone has a LinkId",
    LinkBoth = "both accepted, both calls have a LinkId",
    LinkNeither = "both accepted, neither call has a LinkId",
    TwoAlone = "both accepted, nothing else on the board",
    Others = "both accepted, other calls on the board",
    Joined = "both accepted, joined legs on the board",
    Alerting = "both accepted, a leg that alerts on the board",
    Full = "both accepted, no row empty",
    ReleasedFirst = "9: the first's call was released",
    ReleasedSecond = "9: the second's call was released",
    JoinedFirst = "9: the first's call was transferred",
    JoinedSecond = "9: the second's call was transferred",
    JoinedBoth = "9: the two calls were transferred with each other",
    NeverFirst = "9: the first's reference was no call's ever",
    NeverSecond = "9: the second's reference was no call's ever",
    LegNumber = "9: a leg on the board has the reference's number",
}
