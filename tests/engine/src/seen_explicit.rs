//! What occurs where the service is served: by the option "subscribed" 1 or 2, each event that has to
//! come to the same with the other, and EctExecutes by European rules, which do not.

use crate::alike::Access;
use crate::tally::{before, occurrences};

occurrences! {
    AlikeSeen, for each Access, behind before(34);
    Opened = "Open",
    Progressed = "Progress",
    Held = "Hold",
    ReleasedCall = "Release of a served call",
    ReleasedPair = "Release of a joined leg",
    Answered = "Answer of a leg that was transferred alerting",
    PassedOn = "Leg facility passed on",
    Told = "Inform told",
    Refused3 = "3",
    Refused4 = "4",
    Refused5 = "5",
    Refused6 = "6",
    Refused7 = "7",
    Refused8 = "8",
    Refused9 = "9",
    Refused10 = "10",
    Refused11 = "11",
    Refused12 = "12",
    ExecuteAbsent = "9, EctExecute on a reference without a call",
    Nothing = "Facility, nothing answered",
    General = "Reject with a general problem",
    Unrecognised = "Reject invoke 1, another operation",
    NoLink = "Reject invoke 2",
    LinkNew = "LinkId given",
    LinkAgain = "LinkId given again",
    LinkNone = "error 11",
    Active = "ExplicitEctExecute transfers, both Active",
    NamedAlerts = "ExplicitEctExecute transfers, named call alerting",
    OtherAlerts = "ExplicitEctExecute transfers, other call alerting",
    OwnLink = "error 7: own LinkId",
    NoPair = "error 7: LinkId's call doesn't pair",
    AlertingOff = "error 7: a party alerts, not allowed",
    NotAssigned = "linkIdNotAssignedByNetwork",
}

// By European rules alone, whose accesses come first.
occurrences! {
    ExecuteSeen, for each Access, behind before(38);
    Active = "transfer with 01, both Active",
    NamedAlerts = "transfer with 01, named call alerting",
    OtherAlerts = "transfer with 01, other call alerting",
    None = "error 7 with 01, no call pairs",
    AlertingOff = "error 7 with 01, only an alerting call, not allowed",
    Several = "error 7 with 01, several calls pair",
    Option0 = "second octet 00",
    Option1 = "second octet 01",
    Written = "as written",
    Further = "further elements behind",
    Long = "identifier in two octets",
}
