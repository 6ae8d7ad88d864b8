//! Moving logs: hand-written octets, the checks in their order, targets, and what holds of all logs.

mod common;

use common::one_of_each_kind;
use engine::board::Reference;
use engine::event::Answer;
use engine::logs::steered;
use engine::moving::{judge, move_log, moved_log, Refusal, Way};
use engine::near_move;
use engine::records::{answer, facility, hold, inform, leg_facility, open, progress, release, typed};
use engine::rng::Rng;
use engine::tally::Tally;
use engine::{each_move, moved};

/// Reference 1, leg 7, outgoing, shown, digits 21.
const OLD: [u8; 25] = [1, 0, 1, 0, 0, 0, 7, 0, 0, 2, 0x32, 0x31, 0, 0, 0, 0, 0, 0, 0, 0, 0, 0, 0, 0, 0];
/// The same with type 0.
const NEW: [u8; 26] = [9, 0, 1, 0, 0, 0, 7, 0, 0, 0, 2, 0x32, 0x31, 0, 0, 0, 0, 0, 0, 0, 0, 0, 0, 0, 0, 0];

/// With another octet at the place of the type.
fn new_of(number_type: u8) -> [u8; 26] {
    let mut record = NEW;
    record[9] = number_type;
    record
}

fn log(options: [u8; 2], records: &[&[u8]]) -> Vec<u8> {
    [&options[..], &records.concat()].concat()
}

fn refused(log: &[u8], way: Way) -> (u8, u64) {
    let length = 2 * log.len() + 40;
    let mut target = vec![0x5A; length];
    let Err(Refusal { returned, record }) = judge(log, way) else { panic!("{log:02x?}") };
    assert_eq!(move_log(log, way, &mut target), Answer { returned, written: 0 });
    assert_eq!(move_log(log, way, &mut []), Answer { returned, written: 0 });
    assert_eq!(target, vec![0x5A; length]);
    (returned, record)
}

fn both(log: &[u8]) -> [(u8, u64); 2] {
    Way::BOTH.map(|way| refused(log, way))
}

#[test]
fn an_open_old_to_new_and_back() {
    let (old, new) = (log([1, 0], &[&OLD]), log([1, 0], &[&NEW]));
    assert_eq!((old.len(), new.len()), (27, 28));
    assert_eq!(moved_log(&old, Way::ToNew), Ok(new.clone()));
    assert_eq!(moved_log(&new, Way::ToOld), Ok(old.clone()));
    // What is there already stays.
    assert_eq!(moved_log(&new, Way::ToNew), Ok(new));
    assert_eq!(moved_log(&old, Way::ToOld), Ok(old));
}

#[test]
fn options_alone() {
    for (first, second) in common::OPTIONS {
        for way in Way::BOTH {
            assert_eq!(moved_log(&[first, second], way), Ok(vec![first, second]));
        }
    }
    for bad in
        [&[] as &[u8], &[0], &[1], &[2], &[3, 0], &[0, 4], &[1, 4], &[2, 4], &[3, 4], &[255, 0], &[255, 255]]
    {
        assert_eq!(both(bad), [(5, 0); 2]);
        if bad.len() == 2 {
            assert_eq!(both(&[bad, &OLD, &[0]].concat()), [(5, 0); 2]);
        }
    }
}

/// Whatever would be refused when it is played.
#[test]
fn other_records_stay() {
    let others = [
        progress(Reference(0x8001), 10),
        hold(Reference(5), 3),
        release(0),
        facility(Reference(9), &[0]),
        answer(0xFFFF_FFFF),
        leg_facility(3, &[0xA1; 64]),
        inform(Reference(0xFFFF), &[9, 9, 9]),
    ]
    .concat();
    let old = log([0, 3], &[&others, &OLD, &OLD, &others]);
    let new = log([0, 3], &[&others, &NEW, &NEW, &others]);
    assert_eq!(moved_log(&old, Way::ToNew), Ok(new.clone()));
    assert_eq!(moved_log(&new, Way::ToOld), Ok(old));
    let mixed = log([0, 3], &[&new_of(1), &OLD, &new_of(2), &NEW]);
    assert_eq!(moved_log(&mixed, Way::ToNew), Ok(log([0, 3], &[&new_of(1), &NEW, &new_of(2), &NEW])));
    let mixed = log([0, 3], &[&OLD, &NEW, &OLD]);
    assert_eq!(moved_log(&mixed, Way::ToOld), Ok(log([0, 3], &[&OLD, &OLD, &OLD])));
}

#[test]
fn each_record_cut_at_each_place() {
    for record in one_of_each_kind().into_iter().chain([0, 1, 3].map(|octet| new_of(octet).to_vec())) {
        for length in 1..record.len() {
            assert_eq!(both(&log([1, 1], &[&record[..length]])), [(3, 1); 2]);
            assert_eq!(both(&log([1, 1], &[&release(1), &OLD, &record[..length]])), [(3, 3); 2]);
        }
    }
}

#[test]
fn kinds_and_fields() {
    for kind in [0, 10, 0x81, 0x86, 255] {
        assert_eq!(both(&log([1, 1], &[&[kind]])), [(4, 1); 2]);
        assert_eq!(both(&log([1, 1], &[&OLD, &[kind], &OLD])), [(4, 2); 2]);
    }
    let fields: [(usize, u8); 7] = [(2, 0), (7, 2), (8, 2), (9, 16), (9, 3), (10, 0x3A), (24, 0x30)];
    for (place, octet) in fields {
        let mut record = OLD;
        record[place] = octet;
        assert_eq!(both(&log([1, 1], &[&release(1), &record])), [(5, 2); 2], "octet {place}");
        for number_type in 0..=3 {
            let record = typed(record.to_vec(), number_type);
            assert_eq!(both(&log([1, 1], &[&record, &OLD])), [(5, 1); 2], "octet {place}");
        }
    }
    for number_type in 3..=255 {
        assert_eq!(both(&log([1, 1], &[&NEW, &new_of(number_type)])), [(5, 2); 2]);
    }
    assert_eq!(both(&log([1, 1], &[&[2, 0, 1, 3]])), [(5, 1); 2]);
    assert_eq!(both(&log([1, 1], &[&[3, 0, 1, 4]])), [(5, 1); 2]);
    let mut fill = facility(Reference(1), &[0xA2]);
    fill[35] = 1;
    assert_eq!(both(&log([1, 1], &[&fill])), [(5, 1); 2]);
}

/// The first bad record decides.
#[test]
fn types_1_and_2_on_the_way_back() {
    let old = |records: &[&[u8]]| refused(&log([1, 1], records), Way::ToOld);
    for record in [new_of(1), new_of(2)] {
        assert_eq!(old(&[&record]), (13, 1));
        assert_eq!(old(&[&NEW, &OLD, &record]), (13, 3));
        let bad_fields: [&[u8]; 2] = [&new_of(3), &[2, 0, 0, 4]];
        for bad in bad_fields {
            assert_eq!(old(&[&OLD, &record, bad]), (13, 2));
            assert_eq!(old(&[&OLD, bad, &record]), (5, 2));
        }
        assert_eq!(old(&[&record, &[0]]), (13, 1));
        assert_eq!(old(&[&[0], &record]), (4, 1));
        assert_eq!(old(&[&record, &OLD[..24]]), (13, 1));
        assert_eq!(old(&[&record[..25]]), (3, 1));
        assert_eq!(old(&[&record[..10]]), (3, 1));
        assert_eq!(old(&[&record, &new_of(2), &new_of(1)]), (13, 1));
        // Without digits and restricted too.
        let without = typed(open(Reference(1), 7, 0, 1, b""), record[9]);
        assert_eq!(old(&[&without]), (13, 1));
        assert_eq!(moved_log(&log([1, 1], &[&record]), Way::ToNew), Ok(log([1, 1], &[&record])));
    }
}

#[test]
fn targets() {
    let (old, new) = (log([1, 0], &[&OLD, &release(7)]), log([1, 0], &[&NEW, &release(7)]));
    for (way, log, moved) in [(Way::ToNew, &old, &new), (Way::ToOld, &new, &old)] {
        for length in 0..moved.len() {
            let mut target = vec![0x5A; length];
            assert_eq!(move_log(log, way, &mut target), Answer { returned: 1, written: 0 });
            assert_eq!(target, vec![0x5A; length]);
        }
        for more in [0, 1, 100] {
            let mut target = vec![0x5A; moved.len() + more];
            assert_eq!(move_log(log, way, &mut target), Answer { returned: 0, written: moved.len() });
            assert_eq!(target[..moved.len()], moved[..]);
            assert!(target[moved.len()..].iter().all(|&octet| octet == 0x5A));
        }
    }
    // A bad record comes before the target.
    assert_eq!(both(&log([1, 0], &[&OLD, &[0]])), [(4, 2); 2]);
}

/// Every log and those made from it: judged by playing, moved, played in both forms, and moved back.
#[test]
fn nothing_forbidden_happens() {
    let (mut rng, mut tally) = (Rng::new(51), Tally::default());
    for _ in 0..300 {
        let log = steered(&mut rng);
        let near = near_move::log(&mut rng, &log);
        for log in [log, near] {
            assert_eq!(moved::watch(&log, &mut rng, &mut tally), Ok(()));
        }
    }
    for log in each_move::logs(&mut rng) {
        assert_eq!(moved::watch(&log, &mut rng, &mut tally), Ok(()));
    }
    let met = tally.met();
    let has = |text: &str| assert!(met.iter().any(|met| met == text), "{text}");
    has("new to old: 13: type 1");
    has("new to old: 13 before 4");
    has("old to new: 3: kind 8 cut in its last octet");
    has("old to new: there and back");
    has("new to old: played, turned and 6 in both");
}
