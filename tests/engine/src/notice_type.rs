//! What occurs where numbers that have a type are told, or are not.

use crate::board::Row;
use crate::inform::{EctInform, Indication};
use crate::notice_transfer::Asked;
use crate::reply::Told;
use crate::rules::RuleSet;
use crate::seen_type::{AnswerTypeSeen, InformTypeSeen, TransferTypeSeen};
use crate::tally::Tally;

/// The type of a row's number that is given.
fn given(row: &Row) -> Option<usize> {
    match Told::of(row) {
        Told::Given(number_type, _) => Some(number_type as usize),
        _ => None,
    }
}

/// Of a number of type 1 or 2 that is not given: withheld, or without digits.
fn not_given<T: Copy>(row: &Row, withheld: [T; 2], no_digits: [T; 2]) -> Option<T> {
    let place = (row.number_type as usize).checked_sub(1)?;
    match Told::of(row) {
        Told::Withheld => Some(withheld[place]),
        Told::Unknown => Some(no_digits[place]),
        Told::Given(..) => None,
    }
}

/// A transfer of two Active calls, the named one first.
pub fn both_active(named: &Row, other: &Row, asked: Asked, tally: &mut Tally) {
    use TransferTypeSeen::*;
    let types = [[Given00, Given01, Given02], [Given10, Given11, Given12], [Given20, Given21, Given22]];
    let both = given(named).zip(given(other));
    tally.add_each(both.map(|(a, b)| (asked, types[a][b])));
    for row in [named, other] {
        let seen = not_given(row, [Withheld1, Withheld2], [NoDigits1, NoDigits2]);
        tally.add_each(seen.map(|seen| (asked, seen)));
    }
}

/// A transfer of an Active call and of one that alerts, whose number is not sent.
pub fn one_alerting(alerting: &Row, active: &Row, asked: Asked, tally: &mut Tally) {
    use TransferTypeSeen::*;
    tally.add_each(given(alerting).map(|place| (asked, [Unsent0, Unsent1, Unsent2][place])));
    tally.add_each(given(active).map(|place| (asked, [Active0, Active1, Active2][place])));
    let seen = not_given(active, [ActiveWithheld; 2], [ActiveNoDigits; 2]);
    tally.add_each(seen.map(|seen| (asked, seen)));
}

/// An Answer of the row's party.
pub fn answered(rules: RuleSet, row: &Row, partner: &Row, tally: &mut Tally) {
    use AnswerTypeSeen::*;
    let types = [[Given00, Given01, Given02], [Given10, Given11, Given12], [Given20, Given21, Given22]];
    let both = given(row).zip(given(partner));
    tally.add_each(both.map(|(a, b)| (rules, types[a][b])));
    let own = not_given(row, [Withheld1, Withheld2], [NoDigits1, NoDigits2]);
    let partners =
        not_given(partner, [PartnerWithheld1, PartnerWithheld2], [PartnerNoDigits1, PartnerNoDigits2]);
    tally.add_each(own.into_iter().chain(partners).map(|seen| (rules, seen)));
}

/// An Inform that is told to the party of a row, whose own type has no say in it.
pub fn informed(rules: RuleSet, inform: &EctInform, row: &Row, tally: &mut Tally) {
    use InformTypeSeen::*;
    let own = given(row);
    let typed = own.and_then(|number_type| number_type.checked_sub(1));
    let (indication, told) = (inform.indication, inform.number);
    let by_type = match (indication, told) {
        (Indication::Alerting, _) => [Alerting1, Alerting2],
        (_, Told::Unknown) => [None1, None2],
        (_, Told::Withheld) => [Restricted1, Restricted2],
        (_, Told::Given(..)) => [Digits1, Digits2],
    };
    tally.add_each(typed.map(|place| by_type[place]));
    let (Indication::Active, Told::Given(_, number)) = (indication, told) else { return };
    tally.add_if(own == Some(0), Digits0);
    tally.add_each(not_given(row, [OwnWithheld1, OwnWithheld2], [OwnNoDigits1, OwnNoDigits2]));
    tally.add_each(typed.filter(|_| number == row.number).map(|place| [Same1, Same2][place]));
    tally.add_if(typed.is_some() && rules == RuleSet::American, American);
}

/// A transfer that tells a party's own number, of a type, where it was told another.
pub fn own_number_told(row: &Row, after: bool, tally: &mut Tally) {
    tally.add_if(after && Told::of(row).typed(), InformTypeSeen::ToldAfter);
}
