//! What holds of logs and archives: places, orders and faults by hand, and made ones, whole and damaged.

use std::cmp::Ordering;

use engine::archive::{packed, regrouped, unpacked, Work};
use engine::archive_faults::{of_log, Faults};
use engine::archive_orders;
use engine::archive_places::{body, places, records as by_places, KINDS_AT};
use engine::archived::{watch, without_bad};
use engine::event::{body_length, Event};
use engine::exact::long;
use engine::fields::in_range;
use engine::logs::steered;
use engine::moving::records;
use engine::near_move::of_kind;
use engine::rng::Rng;
use engine::seen_layout::LayoutSeen;
use engine::tally::Tally;
use engine::{each_archive, each_move, near_archive, near_move, wrong_field};

#[test]
fn lengths_of_bodies() {
    for kind in 0..=255 {
        assert_eq!(body(kind), body_length(kind), "kind {kind}");
    }
}

/// Two releases around a progress: the kinds at 6, the progress at 9, the releases' columns from 12.
#[test]
fn places_by_hand() {
    assert_eq!(places(&[]), [0, 1]);
    assert_eq!(places(&[4, 2, 4]), [0, 1, 6, 12, 14, 16, 18, 7, 9, 10, 11, 8, 13, 15, 17, 19]);
    let archive = [1, 0, 0, 0, 0, 3, 4, 2, 4, 0x80, 1, 10, 1, 5, 2, 6, 3, 7, 4, 8];
    let list: Vec<Option<Vec<u8>>> = [[4, 1, 2, 3, 4].as_slice(), &[2, 0x80, 1, 10], &[4, 5, 6, 7, 8]]
        .map(|record| Some(record.to_vec()))
        .to_vec();
    assert_eq!(by_places(&archive, &[4, 2, 4], KINDS_AT), list);
    // The last octet lacks: it is the second release's.
    assert_eq!(by_places(&archive[..19], &[4, 2, 4], KINDS_AT), [&list[..2], &[None]].concat());
}

#[test]
fn orders() {
    let list: [&[u8]; 3] = [&[4, 1, 2, 3, 4], &[2, 0x80, 1, 10], &[4, 5, 6, 7, 8]];
    let right = archive_orders::right(&list);
    assert_eq!(right, [0x80, 1, 10, 1, 5, 2, 6, 3, 7, 4, 8]);
    assert_eq!(archive_orders::others(&list, &right).count(), 7);
    // One record: only its columns have an order.
    let right = archive_orders::right(&list[..1]);
    let others: Vec<LayoutSeen> = archive_orders::others(&list[..1], &right).collect();
    assert_eq!(others, [LayoutSeen::NotFromLastColumn]);
}

/// Each octet of a body at each value: the places say what the reader says.
#[test]
fn fields_by_places() {
    let mut rng = Rng::new(61);
    for kind in 1..=9 {
        for _ in 0..3 {
            let good = of_kind(&mut rng, kind);
            for place in 1..good.len() {
                for octet in 0..=255 {
                    let mut record = good.clone();
                    record[place] = octet;
                    assert_eq!(in_range(&record), Event::read(&record).is_ok(), "{record:02x?}");
                }
            }
        }
    }
    for field in wrong_field::FIELDS {
        for _ in 0..20 {
            let record = wrong_field::with(&mut rng, field);
            assert_eq!((in_range(&record), Event::read(&record)), (false, Err(5)), "{record:02x?}");
        }
    }
}

/// Each fault is seen beside the others.
#[test]
fn faults_by_themselves() {
    let list: [&[u8]; 2] = [&[2, 0, 1, 5], &[4, 0, 0, 0, 7]];
    let mut archive = regrouped([1, 4], &list);
    let seen = |archive: &[u8]| {
        let faults = Faults::of(archive);
        (faults.options, faults.kinds_cut, faults.unknown, faults.length, faults.field)
    };
    assert_eq!(seen(&archive), (true, false, None, None, Some(1)));
    archive.push(0);
    assert_eq!(seen(&archive), (true, false, None, Some(Ordering::Greater), Some(1)));
    archive.truncate(archive.len() - 3);
    assert_eq!(seen(&archive), (true, false, None, Some(Ordering::Less), Some(1)));
    // The kind of the release unknown: its body might have any octets up to 69, but not more.
    archive[7] = 0;
    assert_eq!(seen(&archive), (true, false, Some(2), None, Some(1)));
    archive.extend([0; 67]);
    assert_eq!(seen(&archive), (true, false, Some(2), None, Some(1)));
    archive.push(0);
    assert_eq!(seen(&archive), (true, false, Some(2), Some(Ordering::Greater), Some(1)));
    archive[2] = 1;
    assert_eq!(seen(&archive), (true, true, Some(2), None, None));
    assert!(Faults::of(&archive[..5]).count_cut && Faults::of(&archive[..5]).options);
    assert!(Faults::of(&[]).options && Faults::of(&[1, 1]).first().is_some_and(|first| first.returned == 3));
}

/// Every log and archive that is made: judged beside the engine, there and back.
#[test]
fn nothing_forbidden_happens() {
    let (mut rng, mut tally) = (Rng::new(71), Tally::of_archives());
    let mut logs = [each_archive::logs(&mut rng), each_move::logs(&mut rng)].concat();
    let mut archives = each_archive::archives(&mut rng);
    for _ in 0..150 {
        let log = steered(&mut rng);
        let near = near_move::log(&mut rng, &log);
        logs.extend([log, near]);
    }
    logs.push(long(&mut rng, 20_000));
    for log in &logs {
        if let Some(good) = without_bad(log).filter(|good| good.len() < 10_000) {
            archives.push(near_archive::archive(&mut rng, &good));
            archives.extend(packed(&good));
        }
    }
    for (work, all) in [(Work::Pack, logs), (Work::Unpack, archives)] {
        for octets in all {
            assert_eq!(watch(&octets, work, &mut rng, &mut tally), Ok(()));
        }
    }
    let met = tally.met();
    let has = |text: &str| assert!(met.iter().any(|met| met == text), "{text}");
    has("packed: 9 kinds with several records, among several records");
    has("unpacked: would differ record by record");
    has("pack: 5 before 4");
    has("unpack: 5: options, and too few octets of bodies");
    has("unpack: 4: and a field");
    has("unpack: 5 before 5 of a lower kind, which stands in front of it in the archive");
    has("unpack: 3: a count that is right but for its first octet");
}

/// Exchanging two octets of the bodies, or two kinds, is seen wherever they differ.
#[test]
fn every_place_counts() {
    let mut rng = Rng::new(81);
    let log = each_archive::logs(&mut rng).into_iter().filter(|log| packed(log).is_ok()).max_by_key(|log| {
        let kinds = |kind| records(&log[2..]).any(|record| record[0] == kind);
        ((1..=9).filter(|kind| kinds(*kind)).count(), log.len())
    });
    let log = log.unwrap();
    let archive = packed(&log).unwrap();
    for place in KINDS_AT..archive.len() - 1 {
        let mut other = archive.clone();
        other.swap(place, place + 1);
        if other != archive {
            assert_ne!(unpacked(&other).as_deref(), Ok(log.as_slice()), "octet {place}");
        }
    }
    assert_eq!((of_log(&log), Faults::of(&archive).first()), (None, None));
}
