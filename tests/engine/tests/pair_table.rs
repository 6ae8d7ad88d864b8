//! The tables of verdicts, held to the formula, and what of them occurs in logs.

mod common;

use common::calls;
use engine::board::{Aux, Call, CallState, LinkId, Reference};
use engine::notice_pair::{agreed, came_of_it};
use engine::pair_table::{entry, situation, table, SITUATIONS};
use engine::records;
use engine::rules::RuleSet;
use engine::serve::{pairs_at, verdict};

#[test]
fn situations_are_numbered_in_order() {
    let numbers: Vec<usize> = calls().iter().map(situation).collect();
    assert_eq!(numbers, (0..32).collect::<Vec<_>>());
    let of = |state, aux, direction| {
        situation(&Call { reference: Reference(9), direction, state, aux, link: Some(LinkId(-1)) })
    };
    assert_eq!(of(CallState::Proceeding, Aux::Idle, 0), 0);
    assert_eq!(of(CallState::Delivered, Aux::Held, 0), 12);
    assert_eq!(of(CallState::Received, Aux::Idle, 1), 17);
    assert_eq!(of(CallState::Active, Aux::HoldRequest, 1), 27);
    assert_eq!(of(CallState::Active, Aux::RetrieveRequest, 1), 31);
}

/// How often a verdict stands among entries: ones, twos, zeros.
fn counts<'a>(entries: impl Iterator<Item = &'a u8>) -> [usize; 3] {
    let mut counts = [0; 3];
    entries.for_each(|&entry| counts[entry as usize] += 1);
    [counts[1], counts[2], counts[0]]
}

#[test]
fn ones_and_twos() {
    assert_eq!(counts(table(RuleSet::European).iter()), [8, 8, 1008]);
    assert_eq!(counts(table(RuleSet::American).iter()), [12, 12, 1000]);
}

/// What pairs by European rules pairs by American too; what those add are calls that are both Idle.
#[test]
fn american_adds_both_idle() {
    for a in calls() {
        for b in calls() {
            let [european, american] = RuleSet::BOTH.map(|rules| entry(rules, &a, &b));
            let both_idle = (a.aux, b.aux) == (Aux::Idle, Aux::Idle);
            assert!(american == european || (both_idle && european == 0), "{a:?} {b:?}");
        }
    }
}

#[test]
fn the_tables_are_symmetric() {
    for rules in RuleSet::BOTH {
        for row in 0..SITUATIONS {
            for column in 0..SITUATIONS {
                let both = [32 * row + column, 32 * column + row].map(|place| table(rules)[place]);
                assert_eq!(both[0], both[1], "{rules:?} {row}, {column}");
            }
        }
    }
}

#[test]
fn the_tables_are_the_formula() {
    for rules in RuleSet::BOTH {
        for (row, a) in calls().iter().enumerate() {
            for (column, b) in calls().iter().enumerate() {
                let expected = verdict(rules, a, b);
                assert_eq!(table(rules)[32 * row + column], expected, "{rules:?} {row}, {column}");
                assert_eq!(entry(rules, a, b), expected, "{rules:?} {row}, {column}");
            }
        }
    }
}

/// A call has verdict 1 with itself where it is Active and Idle, by American rules.
#[test]
fn with_itself() {
    let with_itself = |rules| (0..32).filter(|at| table(rules)[33 * at] != 0).collect::<Vec<usize>>();
    assert_eq!(with_itself(RuleSet::European), []);
    assert_eq!(with_itself(RuleSet::American), [24, 25]);
}

/// References, LinkIds and a direction that no sound board has: table and formula agree there too.
#[test]
fn nothing_else_of_a_call_matters() {
    let links = [None, Some(LinkId(0)), Some(LinkId(-32768))];
    for rules in RuleSet::BOTH {
        let verdict = |a: &Call, b: &Call| verdict(rules, a, b);
        let entry = |a: &Call, b: &Call| entry(rules, a, b);
        for a in calls() {
            for b in calls() {
                for (reference, link) in [1, 0x8001, 0xFFFF].into_iter().zip(links) {
                    let second = Call { reference: Reference(reference), link, ..b };
                    assert_eq!(entry(&a, &second), entry(&a, &b));
                    assert_eq!(verdict(&a, &second), verdict(&a, &b));
                }
                for direction in 0..=255 {
                    let second = Call { direction, ..b };
                    assert_eq!(entry(&a, &second), verdict(&a, &second), "{a:?} {second:?}");
                    assert_eq!(entry(&second, &a), verdict(&second, &a), "{second:?} {a:?}");
                }
            }
        }
    }
}

/// On a sound board all entries that are not 0 arise.
#[test]
fn entries_of_sound_calls() {
    let sound: Vec<Call> = calls().into_iter().filter(Call::sound).collect();
    let numbers: Vec<usize> = sound.iter().map(situation).collect();
    assert_eq!(numbers, [0, 8, 10, 12, 14, 17, 24, 25, 26, 27, 28, 29, 30, 31]);
    for (rules, expected) in RuleSet::BOTH.into_iter().zip([[8, 8, 180], [12, 12, 172]]) {
        let entries: Vec<u8> =
            sound.iter().flat_map(|a| sound.iter().map(move |b| entry(rules, a, b))).collect();
        assert_eq!(counts(entries.iter()), expected);
    }
}

#[test]
fn the_option_comes_after_the_lookup() {
    for (alerting, expected) in [(0, 8), (1, 16), (2, 12), (3, 24)] {
        let entries = table(RuleSet::of(alerting)).iter();
        assert_eq!(entries.filter(|&&entry| pairs_at(entry, alerting)).count(), expected);
    }
}

/// Where formula and table differ, or the engine did what the table does not say, that is a fault.
#[test]
fn differences_are_faults() {
    let list = calls();
    let (held, idle) = (&list[28], &list[8]);
    assert_eq!(agreed(held, idle, 2, 2), Ok(2));
    for table in [0, 1] {
        let fault = agreed(held, idle, 2, table).unwrap_err();
        assert!(fault.contains(&format!("verdict 2 by the formula, {table} in the table at (28, 8)")));
    }
    assert_eq!(came_of_it(None, &[]), Ok(()));
    assert_eq!(came_of_it(Some(7), &[7]), Ok(()));
    assert_eq!(came_of_it(None, &[7, 8]), Ok(()));
    for (partner, fitting) in [(Some(7), &[] as &[u32]), (None, &[7]), (Some(8), &[7]), (Some(7), &[7, 8])] {
        assert!(came_of_it(partner, fitting).unwrap_err().contains("by the table"));
    }
}

/// The verdicts that occur in a log in which the calls of two situations are opened, the second gets
/// LinkId 0, and the first is asked to be transferred to it.
fn met(named: usize, other: usize, alerting: u8) -> Vec<String> {
    let mut log = vec![1, alerting];
    for (reference, number) in [(1, named), (2, other)] {
        let call = calls()[number];
        let reference = Reference(reference);
        log.extend(records::open(reference, reference.0 as u32, call.direction, 0, b""));
        if matches!(call.state, CallState::Delivered | CallState::Active) {
            log.extend(records::progress(reference, call.state as u8));
        }
        for step in 1..=call.aux as u8 {
            log.extend(records::hold(reference, step));
        }
    }
    log.extend(records::facility(Reference(2), &records::link_request(&[2, 1, 5])));
    log.extend(records::facility(Reference(1), &records::explicit_link(&[2, 1, 5], LinkId(0))));
    let texts = common::met(&log).into_iter();
    texts.filter(|text| text.contains(": verdict ") || text.contains(": both Idle at ")).collect()
}

/// The text of an entry begins so, whatever the rule set calls it by.
fn begins(text: &str, rules: RuleSet, verdict: u8, (named, other): (usize, usize)) -> bool {
    let at = format!("at {named}, {other}: ");
    text.starts_with(&format!("{rules:?}: verdict {verdict} {at}"))
        || text.starts_with(&format!("{rules:?}: both Idle {at}"))
}

#[test]
fn what_occurs_in_the_logs() {
    for (named, a) in calls().iter().enumerate().filter(|(_, call)| call.sound()) {
        for (other, b) in calls().iter().enumerate().filter(|(_, call)| call.sound()) {
            for alerting in 0..=3 {
                let (rules, met) = (RuleSet::of(alerting), met(named, other, alerting));
                let allowed = if alerting % 2 == 1 { "allowed" } else { "not allowed" };
                match verdict(rules, a, b) {
                    0 => assert!(met.len() <= 1, "{met:?}"),
                    1 => assert!(met.len() == 1 && begins(&met[0], rules, 1, (named, other)), "{met:?}"),
                    _ => {
                        let option = format!("{rules:?}: verdict 2, {allowed}");
                        let (of_option, entries): (Vec<String>, Vec<String>) =
                            met.into_iter().partition(|text| *text == option);
                        assert_eq!((of_option.len(), entries.len()), (1, 1), "{entries:?}");
                        assert!(begins(&entries[0], rules, 2, (named, other)), "{entries:?}");
                    }
                }
            }
        }
    }
}

#[test]
fn reasons_for_verdict_0() {
    for (alerting, rules) in [(1, "European"), (3, "American"), (0, "European"), (2, "American")] {
        let one = |named, other, text: &str| {
            assert_eq!(met(named, other, alerting), [format!("{rules}: verdict 0: {text}")]);
        };
        one(28, 29, "both Active, both Held");
        one(28, 12, "one Delivered, both Held");
        one(26, 24, "both Active, Hold Request with Idle");
        one(10, 25, "one Delivered, Hold Request with Idle");
        one(27, 26, "both Active, both in Hold Request");
        one(8, 31, "one Delivered, Retrieve Request with Idle");
        one(28, 10, "one Delivered, Hold Request with Held");
        one(29, 30, "both Active, Retrieve Request with Held");
        one(30, 31, "both Active, both in Retrieve Request");
        one(27, 14, "one Delivered, Hold Request with Retrieve Request");
        one(12, 8, "Delivered Held with Delivered Idle");
        one(0, 28, "call state 3 with Active Held");
        one(29, 17, "call state 7 with Active Held");
    }
    assert_eq!(met(8, 8, 1), [] as [&str; 0]);
    assert_eq!(met(0, 24, 1), [] as [&str; 0]);
    assert_eq!(met(8, 8, 3), ["American: verdict 0: both Idle, both Delivered"]);
    assert_eq!(met(0, 24, 3), ["American: verdict 0: both Idle, call state 3 with Active"]);
    assert_eq!(met(25, 17, 2), ["American: verdict 0: both Idle, call state 7 with Active"]);
}
