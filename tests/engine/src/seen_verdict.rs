//! Verdicts on which an answer hangs, row the named call's situation. What European rules let pair
//! pairs by American rules too, and is counted for each of them. Of two calls that are both Idle
//! the verdict is 0 by European rules, and 1 or 2 by American.

use crate::rules::RuleSet;
use crate::tally::{before, occurrences};

occurrences! {
    PairSeen, for each RuleSet, behind before(15);
    At8With28 = "verdict 2 at 8, 28: Delivered Idle, with Active Held outgoing",
    At8With29 = "verdict 2 at 8, 29: Delivered Idle, with Active Held incoming",
    At12With24 = "verdict 2 at 12, 24: Delivered Held, with Active Idle outgoing",
    At12With25 = "verdict 2 at 12, 25: Delivered Held, with Active Idle incoming",
    At24With12 = "verdict 2 at 24, 12: Active Idle outgoing, with Delivered Held",
    At24With28 = "verdict 1 at 24, 28: Active Idle outgoing, with Active Held outgoing",
    At24With29 = "verdict 1 at 24, 29: Active Idle outgoing, with Active Held incoming",
    At25With12 = "verdict 2 at 25, 12: Active Idle incoming, with Delivered Held",
    At25With28 = "verdict 1 at 25, 28: Active Idle incoming, with Active Held outgoing",
    At25With29 = "verdict 1 at 25, 29: Active Idle incoming, with Active Held incoming",
    At28With8 = "verdict 2 at 28, 8: Active Held outgoing, with Delivered Idle",
    At28With24 = "verdict 1 at 28, 24: Active Held outgoing, with Active Idle outgoing",
    At28With25 = "verdict 1 at 28, 25: Active Held outgoing, with Active Idle incoming",
    At29With8 = "verdict 2 at 29, 8: Active Held incoming, with Delivered Idle",
    At29With24 = "verdict 1 at 29, 24: Active Held incoming, with Active Idle outgoing",
    At29With25 = "verdict 1 at 29, 25: Active Held incoming, with Active Idle incoming",
    NotAllowed = "verdict 2, not allowed",
    Allowed = "verdict 2, allowed",
    BothDelivered = "verdict 0: Delivered Held with Delivered Idle",
    Proceeding = "verdict 0: call state 3 with Active Held",
    Received = "verdict 0: call state 7 with Active Held",
}

occurrences! {
    IdleSeen, for each RuleSet, behind before(17);
    At8With24 = "both Idle at 8, 24: Delivered, with Active outgoing",
    At8With25 = "both Idle at 8, 25: Delivered, with Active incoming",
    At24With8 = "both Idle at 24, 8: Active outgoing, with Delivered",
    At24With24 = "both Idle at 24, 24: Active outgoing, with Active outgoing",
    At24With25 = "both Idle at 24, 25: Active outgoing, with Active incoming",
    At25With8 = "both Idle at 25, 8: Active incoming, with Delivered",
    At25With24 = "both Idle at 25, 24: Active incoming, with Active outgoing",
    At25With25 = "both Idle at 25, 25: Active incoming, with Active incoming",
}

occurrences! {
    ApartSeen, for each RuleSet, behind before(19);
    HoldIdle = "verdict 0: both Active, Hold Request with Idle",
    HoldIdleAlerting = "verdict 0: one Delivered, Hold Request with Idle",
    HoldHold = "verdict 0: both Active, both in Hold Request",
    HoldHoldAlerting = "verdict 0: one Delivered, both in Hold Request",
    HoldHeld = "verdict 0: both Active, Hold Request with Held",
    HoldHeldAlerting = "verdict 0: one Delivered, Hold Request with Held",
    HoldRetrieve = "verdict 0: both Active, Hold Request with Retrieve Request",
    HoldRetrieveAlerting = "verdict 0: one Delivered, Hold Request with Retrieve Request",
    BothHeld = "verdict 0: both Active, both Held",
    BothHeldAlerting = "verdict 0: one Delivered, both Held",
    RetrieveIdle = "verdict 0: both Active, Retrieve Request with Idle",
    RetrieveIdleAlerting = "verdict 0: one Delivered, Retrieve Request with Idle",
    RetrieveHeld = "verdict 0: both Active, Retrieve Request with Held",
    RetrieveHeldAlerting = "verdict 0: one Delivered, Retrieve Request with Held",
    RetrieveBoth = "verdict 0: both Active, both in Retrieve Request",
    RetrieveBothAlerting = "verdict 0: one Delivered, both in Retrieve Request",
}
