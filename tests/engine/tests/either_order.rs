//! Pairs of logs as they are made and judged, and two events that the request leaves out.

mod common;

use common::{DONE, ID};
use engine::board::Reference;
use engine::each_order;
use engine::either_order::{Orders, Right};
use engine::exchange::Exchange;
use engine::order_logs;
use engine::order_related;
use engine::order_texts::{same, Otherwise};
use engine::ordered::{watch, watch_related};
use engine::records::{answer, execute, facility, hold, inform, leg_facility, open, progress, release};
use engine::rng::Rng;
use engine::stepped::unrelated;
use engine::tally::Tally;

const ONE: Reference = Reference(1);
const TWO: Reference = Reference(2);

fn log(records: &[Vec<u8>]) -> Vec<u8> {
    [&[1, 1], &records.concat()[..]].concat()
}

/// A log whose last two records are exchanged.
fn last_two(records: &[Vec<u8>]) -> Exchange {
    Exchange { log: log(records), places: vec![records.len() - 2] }
}

/// What each of the last two returns in this order and in the other, and whether all is the same.
fn came(records: &[Vec<u8>]) -> ([u8; 2], [u8; 2], bool) {
    let exchange = last_two(records);
    assert!(watch_related(&exchange, &mut Tally::of_orders()).is_ok());
    let (orders, place) = (Orders::of(&exchange, Right), exchange.places[0]);
    let [first, second] = [&orders.first, &orders.second]
        .map(|played| [0, 1].map(|beside| played.steps[place + beside].returned));
    (first, second, orders.same(&exchange).is_ok())
}

#[test]
fn the_order_matters_beside_other_kinds() {
    let opens = [open(ONE, 7, 0, 0, b"21"), open(TWO, 8, 1, 0, b"34"), progress(TWO, 10)];
    let beside = |front: &[Vec<u8>], two: [Vec<u8>; 2]| came(&[&opens[..], front, &two].concat());
    assert_eq!(came(&[open(ONE, 7, 0, 0, b""), progress(ONE, 4)]), ([0, 0], [9, 0], false));
    assert_eq!(came(&[open(ONE, 7, 0, 0, b""), hold(ONE, 1)]), ([0, 11], [9, 0], false));
    assert_eq!(beside(&[], [progress(ONE, 4), release(7)]), ([0, 0], [0, 9], false));
    assert_eq!(beside(&[], [hold(TWO, 1), release(8)]), ([0, 0], [0, 9], false));
    assert_eq!(beside(&[], [hold(TWO, 1), release(7)]), ([0, 0], [0, 0], true));
    // The numbers are the same, and the octets are not: an error and a result.
    let front = [progress(ONE, 10), hold(TWO, 1)];
    let transfer = facility(ONE, &execute(ID));
    assert_eq!(beside(&front, [hold(TWO, 2), transfer.clone()]), ([0, 0], [0, 0], false));
    let held = [&front[..], &[hold(TWO, 2)]].concat();
    assert_eq!(beside(&held, [hold(TWO, 3), transfer.clone()]), ([0, 0], [0, 9], false));
    assert_eq!(transfer[4..4 + execute(ID).len()], execute(ID)[..]);
    let component = engine::records::ect_inform(ID, &[0x30, 3, 0x0A, 1, 1]);
    assert_eq!(beside(&[], [progress(ONE, 10), inform(ONE, &component)]), ([0, 0], [11, 0], false));
    assert_eq!(beside(&[], [hold(TWO, 1), inform(TWO, &component)]), ([0, 0], [0, 0], true));
}

/// Answers and Leg facilities touch joined legs alone.
#[test]
fn joined_legs_beside_calls() {
    let front = [
        open(ONE, 7, 0, 0, b"21"),
        progress(ONE, 10),
        hold(ONE, 1),
        hold(ONE, 2),
        open(TWO, 8, 0, 0, b"34"),
        progress(TWO, 4),
        facility(ONE, &execute(ID)),
        open(TWO, 9, 0, 0, b""),
    ];
    assert_eq!(
        common::reply_component(&Orders::of(&last_two(&front), Right).first.steps[6].written, 1),
        DONE
    );
    let passed = leg_facility(8, &engine::records::subaddress_transfer(ID, &[4, 1, 7]));
    for record in [answer(8), passed] {
        assert_eq!(came(&[&front[..], &[record, progress(TWO, 10)]].concat()), ([0, 0], [0, 0], true));
    }
}

/// Each two events on one reference, in each situation: all answers the same, and the board is too.
#[test]
fn each_two_on_one_reference() {
    let mut tally = Tally::of_orders();
    let all = each_order::related();
    assert_eq!(all.len(), 11 * 36);
    all.iter().for_each(|exchange| assert!(watch_related(exchange, &mut tally).is_ok()));
    let missing = tally.missing();
    assert!(missing.iter().all(|text| !text.starts_with("on one reference")), "{missing:?}");
}

/// Each two events on two calls, in each two situations, or on none.
#[test]
fn each_two_on_two_references() {
    let mut tally = Tally::of_orders();
    let all = each_order::unrelated();
    assert_eq!(all.len(), 66 * 66);
    all.iter().for_each(|exchange| assert!(watch(exchange, &mut tally).is_ok()));
    let missing = tally.missing();
    let listed = |text: &String| text.starts_with("exchanged: ") || text.starts_with("call state");
    assert!(!missing.iter().any(listed), "{missing:?}");
}

#[test]
fn which_two_are_unrelated() {
    let (one, two) = (progress(ONE, 4), hold(TWO, 0));
    assert!(unrelated(&one, &two) && unrelated(&two, &one));
    assert!(unrelated(&one, &progress(Reference(0x8001), 4)));
    for other in [
        hold(ONE, 1),
        progress(TWO, 3),
        hold(TWO, 4),
        hold(Reference(0), 1),
        hold(Reference(0x8000), 1),
        two[..3].to_vec(),
        [&two[..], &[0]].concat(),
        release(7),
        Vec::new(),
    ] {
        assert!(!unrelated(&one, &other) && !unrelated(&other, &one), "{other:02x?}");
    }
}

#[test]
fn made_pairs() {
    let (mut rng, mut again) = (Rng::new(5), Rng::new(5));
    let mut tally = Tally::of_orders();
    for _ in 0..150 {
        let exchange = order_logs::exchange(&mut rng);
        let same = order_logs::exchange(&mut again);
        assert_eq!((&same.log, &same.places), (&exchange.log, &exchange.places));
        assert!(exchange.places.windows(2).all(|two| two[1] - two[0] >= 2));
        let (log, places) = (exchange.other(), exchange.places.clone());
        assert!(log.len() == exchange.log.len());
        assert_eq!(Exchange { log, places }.other(), exchange.log);
        assert!(watch(&exchange, &mut tally).is_ok());
        let related = order_related::exchange(&mut rng);
        order_related::exchange(&mut again);
        assert_eq!(related.places, [related.records().len() - 2]);
        assert!(watch_related(&related, &mut tally).is_ok());
    }
    // What the request leaves out is not taken for what it asks for.
    assert!(watch(&last_two(&[progress(ONE, 4), release(7)]), &mut tally).is_err());
}

#[test]
fn octets_behind_an_unknown_kind_stay() {
    let records = [progress(ONE, 4), hold(TWO, 1), vec![10, 1, 2, 3]];
    let other = Exchange { log: log(&records), places: vec![0] }.other();
    assert_eq!(other, log(&[records[1].clone(), records[0].clone(), records[2].clone()]));
}

#[test]
fn texts_line_by_line() {
    let text = |lines: [&str; 4]| [&["ect 1"], &lines[..], &["end 1 0 0", ""]].concat().join("\n");
    let right = text(["9 2 0 -", "10 3 11 -", "11 4 10 -", "12 2 9 -"]);
    let judged = |lines, places: &[usize]| same(right.as_bytes(), text(lines).as_bytes(), places);
    assert_eq!(judged(["9 3 11 -", "10 2 0 -", "11 4 10 -", "12 2 9 -"], &[0]), Ok(()));
    assert_eq!(judged(["9 3 11 -", "10 2 0 -", "11 2 9 -", "12 4 10 -"], &[0, 2]), Ok(()));
    assert_eq!(judged(["9 2 0 -", "10 3 11 -", "11 4 10 -", "12 2 9 -"], &[0]), Err(Otherwise::Answer(1)));
    assert_eq!(judged(["9 3 0 -", "10 2 0 -", "11 4 10 -", "12 2 9 -"], &[0]), Err(Otherwise::Answer(2)));
    assert_eq!(judged(["9 3 11 84", "10 2 0 -", "11 4 10 -", "12 2 9 -"], &[0]), Err(Otherwise::Answer(2)));
    assert_eq!(judged(["10 3 11 -", "9 2 0 -", "11 4 10 -", "12 2 9 -"], &[0]), Err(Otherwise::Answer(1)));
    assert_eq!(judged(["9 3 11 -", "10 2 0 -", "11 4 11 -", "12 2 9 -"], &[0]), Err(Otherwise::Line(3)));
    let end = right.replace("9 2 0 -\n10 3 11 -", "9 3 11 -\n10 2 0 -").replace("end 1", "end 2");
    assert_eq!(same(right.as_bytes(), end.as_bytes(), &[0]), Err(Otherwise::Line(5)));
    let short = end.replace("12 2 9 -\n", "");
    assert_eq!(same(right.as_bytes(), short.as_bytes(), &[0]), Err(Otherwise::Line(6)));
}
