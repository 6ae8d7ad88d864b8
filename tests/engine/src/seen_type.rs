//! What occurs because numbers have a type. "Given" is a number with digits that is not restricted.

use crate::notice_open::Opened;
use crate::notice_transfer::Asked;
use crate::rules::RuleSet;
use crate::tally::{before, occurrences};

occurrences! {
    OpenSeen, for each Opened, behind before(21);
    Outgoing = "outgoing",
    Incoming = "incoming",
    Given = "shown with digits",
    Withheld = "restricted with digits",
    NoDigits = "shown with 0 digits",
    RestrictedNone = "restricted with 0 digits",
    One = "1 digit",
    Fifteen = "15 digits",
    American = "American",
    Unsubscribed = "not subscribed",
    OtherBefore = "into a row that had a party of another type",
    LastRow = "into the last row",
    LegTaken = "6",
    ReferenceTaken = "7",
    BoardFull = "8",
}

occurrences! {
    TypeSeen, behind before(25);
    CutAfterKind = "3: kind 9, cut right after the kind",
    CutBeforeType = "3: kind 9, cut in front of the type",
    CutAfterType = "3: kind 9, cut right after the type",
    CutOneShort = "3: kind 9, one octet short",
    CutElsewhere = "3: kind 9, cut elsewhere",
    CutBadType = "3: kind 9, cut behind a type above 2",
    OneBehind = "kind 9, one octet behind it, then the log ends",
    Type3 = "5: kind 9, all right but type 3",
    Type4 = "5: kind 9, all right but type 4",
    Type255 = "5: kind 9, all right but type 255",
    TypeElse = "5: kind 9, all right but another type",
    TypeAndOther = "5: kind 9, type and another field",
    TypeBeforeLeg = "5: kind 9, all right but the type, where 6 would follow",
    TypeBeforeReference = "5: kind 9, all right but the type, where 7 would follow",
    TypeBeforeFull = "5: kind 9, all right but the type, where 8 would follow",
    Reference0 = "5: kind 9, all right but reference 0",
    Reference8000 = "5: kind 9, all right but reference 8000",
    Direction = "5: kind 9, all right but the direction",
    Presentation = "5: kind 9, all right but the presentation",
    DigitCount = "5: kind 9, all right but the digit count",
    Digit = "5: kind 9, all right but a digit",
    DigitFill = "5: kind 9, all right but the fill after digits",
    PlacesOf1 = "5: kind 9, right at the places of kind 1",
    PlacesOf9 = "5: kind 1, right at the places of kind 9",
}

occurrences! {
    TransferTypeSeen, for each Asked, behind before(26);
    Given00 = "both Active, numbers given, types 0 and 0",
    Given01 = "both Active, numbers given, types 0 and 1",
    Given02 = "both Active, numbers given, types 0 and 2",
    Given10 = "both Active, numbers given, types 1 and 0",
    Given11 = "both Active, numbers given, types 1 and 1",
    Given12 = "both Active, numbers given, types 1 and 2",
    Given20 = "both Active, numbers given, types 2 and 0",
    Given21 = "both Active, numbers given, types 2 and 1",
    Given22 = "both Active, numbers given, types 2 and 2",
    Withheld1 = "both Active, number of type 1 withheld",
    Withheld2 = "both Active, number of type 2 withheld",
    NoDigits1 = "both Active, no digits of type 1",
    NoDigits2 = "both Active, no digits of type 2",
    Unsent0 = "no number sent, alerting party's of type 0",
    Unsent1 = "no number sent, alerting party's of type 1",
    Unsent2 = "no number sent, alerting party's of type 2",
    Active0 = "one alerting, the Active party's of type 0",
    Active1 = "one alerting, the Active party's of type 1",
    Active2 = "one alerting, the Active party's of type 2",
    ActiveWithheld = "one alerting, the Active party's of type 1 or 2 and restricted",
    ActiveNoDigits = "one alerting, the Active party's without digits, of type 1 or 2",
}

occurrences! {
    AnswerTypeSeen, for each RuleSet, behind before(29);
    Given00 = "Answer, both numbers given, type 0, partner's 0",
    Given01 = "Answer, both numbers given, type 0, partner's 1",
    Given02 = "Answer, both numbers given, type 0, partner's 2",
    Given10 = "Answer, both numbers given, type 1, partner's 0",
    Given11 = "Answer, both numbers given, type 1, partner's 1",
    Given12 = "Answer, both numbers given, type 1, partner's 2",
    Given20 = "Answer, both numbers given, type 2, partner's 0",
    Given21 = "Answer, both numbers given, type 2, partner's 1",
    Given22 = "Answer, both numbers given, type 2, partner's 2",
    Withheld1 = "Answer, number of type 1 withheld",
    Withheld2 = "Answer, number of type 2 withheld",
    NoDigits1 = "Answer, no digits of type 1",
    NoDigits2 = "Answer, no digits of type 2",
    PartnerWithheld1 = "Answer, partner's number of type 1 restricted",
    PartnerWithheld2 = "Answer, partner's number of type 2 restricted",
    PartnerNoDigits1 = "Answer, partner's without digits, of type 1",
    PartnerNoDigits2 = "Answer, partner's without digits, of type 2",
}

occurrences! {
    InformTypeSeen, behind before(31);
    Digits0 = "Inform of active, mark 1, own number given, of type 0",
    Digits1 = "Inform of active, mark 1, own number given, of type 1",
    Digits2 = "Inform of active, mark 1, own number given, of type 2",
    Restricted1 = "Inform of active, mark 2, own number given, of type 1",
    Restricted2 = "Inform of active, mark 2, own number given, of type 2",
    None1 = "Inform of active, mark 0, own number given, of type 1",
    None2 = "Inform of active, mark 0, own number given, of type 2",
    Alerting1 = "Inform of alerting, own number given, of type 1",
    Alerting2 = "Inform of alerting, own number given, of type 2",
    OwnWithheld1 = "Inform of active, mark 1, own number restricted, of type 1",
    OwnWithheld2 = "Inform of active, mark 1, own number restricted, of type 2",
    OwnNoDigits1 = "Inform of active, mark 1, no own digits, of type 1",
    OwnNoDigits2 = "Inform of active, mark 1, no own digits, of type 2",
    Same1 = "Inform of active, mark 1, the own digits, which are of type 1",
    Same2 = "Inform of active, mark 1, the own digits, which are of type 2",
    American = "Inform of active, mark 1, own number given, of type 1 or 2, American",
    ToldAfter = "transfer of a party that was told another number, its own given, of type 1 or 2",
}

occurrences! {
    ConsoleSeen, for each RuleSet, behind before(32);
    WholeNumber = "old console sees all records, one with a number",
    StopsAtFirst = "old console sees nothing, 0x86 first",
    StopsBehindDrops = "old console sees Reply and Drops alone",
    NumberBefore = "old console sees a number, then 0x86",
    WithheldBefore = "old console sees mark 2, then 0x86",
    UnknownBefore = "old console sees mark 0, then 0x86",
    NumberBehind = "number of type 0 behind a 0x86",
    WithheldBehind = "mark 2 behind a 0x86",
    UnknownBehind = "mark 0 behind a 0x86",
    Two = "two 0x86",
}
