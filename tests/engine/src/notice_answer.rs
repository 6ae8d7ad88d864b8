//! What occurs where a party answers that was transferred while it alerted.

use crate::board::{Board, Row, Standing};
use crate::notice::{row_of_leg, Moment, Past};
use crate::notice_type;
use crate::reply::Told;
use crate::rules::RuleSet;
use crate::seen_rules::{AnswerSeen, RuleSeen};
use crate::tally::Tally;

/// Tallies an Answer by the numbers of the two parties, and by how they stand to each other.
pub fn answered(board: &Board, row: &Row, past: &Past, tally: &mut Tally) {
    let Standing::Joined { partner, .. } = row.standing else { return };
    let Some(other) = row_of_leg(board, partner) else { return };
    let rules = board.rules();
    numbers(rules, row, other, tally);
    notice_type::answered(rules, row, other, tally);
    let of = |test: bool, seen: [AnswerSeen; 2]| (rules, seen[test as usize]);
    let named = past.named.contains(&row.leg);
    tally.add(of(named, [AnswerSeen::OtherAnswers, AnswerSeen::NamedAnswers]));
    tally.add(of(row.leg > partner, [AnswerSeen::LowerLeg, AnswerSeen::HigherLeg]));
    let first = board.rows.iter().find(|found| std::ptr::eq(*found, row) || std::ptr::eq(*found, other));
    let higher = first.is_some_and(|first| std::ptr::eq(first, other));
    tally.add(of(higher, [AnswerSeen::LowerRow, AnswerSeen::HigherRow]));
}

/// A program that tells the number of the wrong row, or what is restricted, differs in these.
fn numbers(rules: RuleSet, row: &Row, other: &Row, tally: &mut Tally) {
    use AnswerSeen::*;
    let marks = [
        [UnknownUnknown, UnknownGiven, UnknownWithheld],
        [GivenUnknown, GivenGiven, GivenWithheld],
        [WithheldUnknown, WithheldGiven, WithheldWithheld],
    ];
    let mark = |row: &Row| Told::of(row).mark() as usize;
    tally.add((rules, marks[mark(row)][mark(other)]));
    if let (Told::Given(_, own), Told::Given(_, partners)) = (Told::of(row), Told::of(other)) {
        let lengths = partners.count().cmp(&own.count());
        tally.add_if(lengths.is_lt(), (rules, Fewer));
        tally.add_if(lengths.is_gt(), (rules, More));
        tally.add_if(lengths.is_eq() && own != partners, (rules, AsMany));
    }
}

/// An Answer that is not permitted.
pub fn refused(moment: &Moment, row: &Row, past: &Past, tally: &mut Tally) {
    let rules = moment.before.rules();
    if row.call().is_some() {
        return tally.add((rules, RuleSeen::AnswerServed));
    }
    tally.add((rules, RuleSeen::AnswerQuiet));
    tally.add_if(past.answered.contains(&row.leg), (rules, RuleSeen::AnswerAgain));
}
