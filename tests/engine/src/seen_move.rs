//! What occurs where a log is moved. "Turned" is a record that gets the other kind, "typed" one of
//! kind 9 with type 1 or 2.

use crate::moving::Way;
use crate::seen_bad::{cuts, wrong_fields};
use crate::seen_options::options;
use crate::tally::{before, occurrences};

occurrences! {
    MoveSeen, for each Way, behind before(41);
    ..options("moved, "),
    OptionsAlone = "moved, options alone",
    NoneTurned = "moved, records but none turned",
    AllTurned = "moved, several records, all turned",
    FirstTurned = "moved, first record turned",
    LastTurned = "moved, last record turned",
    OtherStays = "moved, the other Open there already",
    OneForm = "moved, turned and without the other Open",
    TurnedNoDigits = "moved, turned without digits",
    TurnedFifteen = "moved, turned with 15 digits",
    TurnedRestricted = "moved, turned and restricted",
    Kind2 = "moved, kind 2 as it is",
    Kind3 = "moved, kind 3 as it is",
    Kind4 = "moved, kind 4 as it is",
    Kind5 = "moved, kind 5 as it is",
    Kind6 = "moved, kind 6 as it is",
    Kind7 = "moved, kind 7 as it is",
    Kind8 = "moved, kind 8 as it is",
    Exact = "target exact",
    Larger = "target larger",
    Short = "1: target one octet short",
    AsLog = "target as large as the log, the moved one of another length",
    RefusedShort = "first bad record, target too small",
    OptionsShort = "5: options, target too small",
    Back = "there and back",
    TurnedAccepted = "played, turned and accepted",
    Returned1 = "played, turned and 1 in both",
    Returned6 = "played, turned and 6 in both",
    Returned7 = "played, turned and 7 in both",
    Returned8 = "played, turned and 8 in both",
    Returned9 = "played, 9 in both",
    Returned10 = "played, 10 in both",
    Returned11 = "played, 11 in both",
    Returned12 = "played, 12 in both",
    NoOctets = "5: options, no octets",
    OneOctet = "5: options, one octet",
    OptionFirst3 = "5: options, first octet 03",
    OptionFirstFF = "5: options, first octet FF",
    OptionFirstElse = "5: options, first octet 04 to FE",
    OptionSecond = "5: options, second octet",
    OptionsBad24 = "5: options 02 04",
    OptionsBad2 = "5: options, first octet 02, second octet 05 to FF",
    OptionBoth = "5: options, both octets",
    OptionsRecord = "5: options, and a record is bad too",
    FirstRecord = "the first record is bad",
    LastRecord = "the last record of several is bad, no other",
    ..cuts(),
    CutTyped = "3: typed and cut",
    CutType = "3: kind 9 cut behind a type above 2",
    Kind0 = "4: kind 0",
    Kind10 = "4: kind 10",
    KindElse = "4: another kind",
    KindLast = "4: as last octet",
    KindTyped = "4: and a typed one behind it",
    ..wrong_fields(),
    Field9 = "5: kind 9, type 0",
    FieldTyped = "5: typed, and another field",
    FieldType3 = "5: type 3",
    FieldType = "5: type above 3",
    FieldBefore3 = "5 before 3",
    FieldBefore4 = "5 before 4",
    FieldBefore5 = "5 before 5",
    FieldBeforeTyped = "5 before a typed one",
}

occurrences! {
    ToNewSeen, behind before(43);
    Stays0 = "moved, kind 9 of type 0 as it is",
    Stays1 = "moved, kind 9 of type 1 as it is",
    Stays2 = "moved, kind 9 of type 2 as it is",
    StaysNoDigits = "moved, typed without digits as it is",
}

occurrences! {
    ToOldSeen, behind before(44);
    Type1 = "13: type 1",
    Type2 = "13: type 2",
    NoDigits = "13: without digits",
    Restricted = "13: restricted",
    First = "13: first record",
    Last = "13: last record",
    Before3 = "13 before 3",
    Before4 = "13 before 4",
    Before5 = "13 before 5",
    Before13 = "13 before 13",
    Turned = "13 behind a record that would be turned",
}
