//! Archives: hand-written octets, each check in its order, the largest, counts, and targets.

mod common;

use common::{one_of_each_kind, OPTIONS};
use engine::archive::{packed, regrouped, unpacked, Work, LARGEST_ARCHIVE, LARGEST_LOG};
use engine::board::Reference;
use engine::event::Answer;
use engine::moving::Refusal;
use engine::records::{answer, facility, hold, inform, leg_facility, progress, release};

/// What a refusal returns and names, into a target of any length, which it leaves.
fn refused(work: Work, octets: &[u8]) -> (u8, u64) {
    let Err(Refusal { returned, record }) = work.done(octets) else { panic!("{octets:02x?}") };
    for length in [0, octets.len(), 2 * octets.len() + 40] {
        let mut target = vec![0x5A; length];
        assert_eq!(work.into(octets, &mut target), Answer { returned, written: 0 });
        assert_eq!(target, vec![0x5A; length]);
    }
    (returned, record)
}

fn pack(log: &[u8]) -> (u8, u64) {
    refused(Work::Pack, log)
}

fn unpack(archive: &[u8]) -> (u8, u64) {
    refused(Work::Unpack, archive)
}

/// Both ways.
fn pair(log: &[u8], archive: &[u8]) {
    assert_eq!(packed(log).as_deref(), Ok(archive));
    assert_eq!(unpacked(archive).as_deref(), Ok(log));
}

fn log(records: &[&[u8]]) -> Vec<u8> {
    [&[1, 0], &records.concat()[..]].concat()
}

/// Behind the options 1 0.
fn archive(count: u32, parts: &[&[u8]]) -> Vec<u8> {
    [&[1, 0][..], &count.to_be_bytes(), &parts.concat()].concat()
}

#[test]
fn options_alone() {
    for (first, second) in OPTIONS {
        pair(&[first, second], &[first, second, 0, 0, 0, 0]);
    }
    let bad: [&[u8]; 10] = [&[], &[0], &[1], &[2], &[3], &[3, 0], &[0, 4], &[1, 4], &[2, 255], &[255, 255]];
    for bad in bad {
        assert_eq!((pack(bad), unpack(bad)), ((5, 0), (5, 0)));
    }
}

#[test]
fn records_of_one_kind() {
    pair(&log(&[&[2, 0x81, 0x23, 4]]), &archive(1, &[&[2], &[0x81, 0x23, 4]]));
    pair(
        &log(&[&[4, 1, 2, 3, 4], &[4, 5, 6, 7, 8], &[4, 9, 10, 11, 12]]),
        &archive(3, &[&[4, 4, 4], &[1, 5, 9], &[2, 6, 10], &[3, 7, 11], &[4, 8, 12]]),
    );
    let open =
        |reference, leg, digit| [&[1, 0, reference, 0, 0, 0, leg, 1, 0, 1, digit], &[0; 14][..]].concat();
    pair(
        &log(&[&open(1, 7, 0x31), &open(2, 9, 0x32)]),
        &archive(
            2,
            &[
                &[1, 1],
                &[0, 0, 1, 2],
                &[0, 0, 0, 0, 0, 0, 7, 9],
                &[1, 1, 0, 0, 1, 1],
                &[0x31, 0x32],
                &[0; 28],
            ],
        ),
    );
}

/// Kinds ascend, whatever the order of the log, and each has its columns.
#[test]
fn records_of_several_kinds() {
    pair(
        &log(&[
            &[6, 0xA1, 0xA2, 0xA3, 0xA4],
            &[3, 0, 1, 3],
            &[2, 0, 2, 10],
            &[6, 0xB1, 0xB2, 0xB3, 0xB4],
            &[2, 0, 5, 4],
            &[4, 0xC1, 0xC2, 0xC3, 0xC4],
            &[3, 0x80, 4, 0],
        ]),
        &archive(
            7,
            &[
                &[6, 3, 2, 6, 2, 4, 3],
                &[0, 0, 2, 5, 10, 4],
                &[0, 0x80, 1, 4, 3, 0],
                &[0xC1, 0xC2, 0xC3, 0xC4],
                &[0xA1, 0xB1, 0xA2, 0xB2, 0xA3, 0xB3, 0xA4, 0xB4],
            ],
        ),
    );
}

/// The long kinds: the components' columns behind those of reference or leg and count.
#[test]
fn records_with_components() {
    let records = [
        inform(Reference(1), &[7]),
        leg_facility(2, &[8, 9]),
        facility(Reference(3), &[5]),
        inform(Reference(4), &[6]),
    ];
    let list: Vec<&[u8]> = records.iter().map(Vec::as_slice).collect();
    let bodies = [
        // Kind 5, then 7, then two of kind 8.
        vec![0, 3, 1, 5],
        vec![0; 31],
        vec![0, 0, 0, 2, 2, 8, 9],
        vec![0; 62],
        vec![0, 0, 1, 4, 1, 1, 7, 6],
        vec![0; 126],
    ]
    .concat();
    pair(&log(&list), &archive(4, &[&[8, 7, 5, 8], &bodies]));
}

#[test]
fn one_of_each_kind_either_way_round() {
    let mut records = one_of_each_kind().to_vec();
    let bodies = records.iter().map(|record| &record[1..]).collect::<Vec<_>>().concat();
    for kinds in [[1, 2, 3, 4, 5, 6, 7, 8, 9], [9, 8, 7, 6, 5, 4, 3, 2, 1]] {
        let list: Vec<&[u8]> = records.iter().map(Vec::as_slice).collect();
        pair(&log(&list), &archive(9, &[&kinds, &bodies]));
        records.reverse();
    }
}

/// What the component would refuse by 6 or a later number is kept.
#[test]
fn records_are_looked_at_by_themselves() {
    let records = [progress(Reference(1), 10), hold(Reference(0x8001), 3), release(0), answer(9)];
    let list: Vec<&[u8]> = records.iter().map(Vec::as_slice).collect();
    assert_eq!(packed(&log(&list)).map(|archive| archive.len()), Ok(log(&list).len() + 4));
    let twice = [&list[..], &list].concat();
    assert!(packed(&log(&twice)).is_ok());
}

#[test]
fn the_checks_of_packing() {
    let (good, cut, unknown, field) =
        (release(7), [4, 0, 0, 0].as_slice(), [10].as_slice(), [3, 0, 1, 4].as_slice());
    assert_eq!(pack(&log(&[cut])), (3, 1));
    assert_eq!(pack(&log(&[&good, unknown])), (4, 2));
    assert_eq!(pack(&log(&[&good, &good, field])), (5, 3));
    // The first bad record decides.
    assert_eq!(pack(&log(&[unknown, cut])), (4, 1));
    assert_eq!(pack(&log(&[unknown, field])), (4, 1));
    assert_eq!(pack(&log(&[field, cut])), (5, 1));
    assert_eq!(pack(&log(&[field, unknown])), (5, 1));
    // Options before records.
    for bad in [cut, unknown, field] {
        assert_eq!(pack(&[&[1, 4], bad].concat()), (5, 0));
        assert_eq!(pack(&[&[3, 0], bad].concat()), (5, 0));
    }
    // Three octets: a kind with no body, or no kind.
    for kind in 0..=255 {
        let known = (1..=9).contains(&kind);
        assert_eq!(pack(&[1, 1, kind]), (if known { 3 } else { 4 }, 1));
    }
    for record in one_of_each_kind() {
        for length in 1..record.len() {
            assert_eq!(pack(&log(&[&good, &record[..length]])), (3, 2));
        }
    }
}

#[test]
fn the_checks_of_unpacking_one_by_one() {
    assert_eq!(unpack(&[1, 4, 0, 0, 0, 0]), (5, 0));
    for length in 2..6 {
        assert_eq!(unpack(&[1, 0, 0, 0, 0, 0][..length]), (3, 0));
        assert_eq!(unpack(&[2, 3, 255, 255, 255, 255][..length]), (3, 0));
        assert_eq!(unpack(&[3, 0, 0, 0, 0, 0][..length]), (5, 0));
    }
    assert_eq!(unpack(&archive(1, &[])), (3, 0));
    assert_eq!(unpack(&archive(3, &[&[4, 4]])), (3, 0));
    assert_eq!(unpack(&archive(2, &[&[2, 10]])), (4, 2));
    assert_eq!(unpack(&archive(1, &[&[4], &[0; 3]])), (3, 0));
    assert_eq!(unpack(&archive(1, &[&[4], &[0; 5]])), (3, 0));
    assert_eq!(unpack(&archive(1, &[&[2], &[0, 0, 4]])), (5, 1));
}

/// Which of two faults decides.
#[test]
fn the_checks_of_unpacking_in_their_order() {
    let bad_options = |mut archive: Vec<u8>| {
        archive[1] = 4;
        archive
    };
    let field = [0, 0, 4];
    let faults = [
        archive(0, &[])[..5].to_vec(),
        archive(5, &[&[2], &field]),
        archive(1, &[&[0], &field]),
        archive(1, &[&[2], &field[..2]]),
        archive(1, &[&[2], &field]),
    ];
    for (fault, due) in faults.into_iter().zip([(3, 0), (3, 0), (4, 1), (3, 0), (5, 1)]) {
        assert_eq!(unpack(&fault), due);
        assert_eq!(unpack(&bad_options(fault)), (5, 0));
    }
    // Kinds cut short, and an unknown one among those there.
    assert_eq!(unpack(&archive(5, &[&[0, 0, 0, 0]])), (3, 0));
    // An unknown kind, whatever the octets behind, a wrong field too.
    for behind in [&[] as &[u8], &field, &[0; 72], &[0, 0, 4, 0]] {
        assert_eq!(unpack(&archive(2, &[&[2, 10], behind])), (4, 2));
        assert_eq!(unpack(&archive(3, &[&[255, 2, 10], behind])), (4, 1));
    }
    // A length that disagrees, and a wrong field in the octets that are there.
    let (release, wrong) = ([0, 0, 0, 7], field);
    assert_eq!(unpack(&archive(2, &[&[2, 4], &wrong, &release[..3]])), (3, 0));
    assert_eq!(unpack(&archive(2, &[&[2, 4], &wrong, &release, &[0]])), (3, 0));
    // Octets where there are no records at all.
    assert_eq!(unpack(&archive(0, &[&[0]])), (3, 0));
    assert_eq!(unpack(&archive(0, &[&[2], &wrong])), (3, 0));
}

/// Not the first in the order of the columns.
#[test]
fn the_first_bad_record_is_that_of_the_log() {
    let (bad_progress, bad_hold) = ([2, 0, 1, 5], [3, 0, 1, 9]);
    let records: [&[u8]; 4] = [&[4, 0, 0, 0, 1], &bad_hold, &[4, 0, 0, 0, 2], &bad_progress];
    assert_eq!(unpack(&regrouped([1, 0], &records)), (5, 2));
    assert_eq!(pack(&log(&records)), (5, 2));
    let records: [&[u8]; 2] = [&[2, 0, 1, 5], &[2, 0, 0, 4]];
    assert_eq!(unpack(&regrouped([1, 0], &records)), (5, 1));
}

#[test]
fn bodies_of_each_kind_too_short_and_too_long() {
    for record in one_of_each_kind() {
        for count in [1, 3] {
            let good = regrouped([1, 0], &vec![record.as_slice(); count]);
            assert_eq!(unpacked(&good), Ok([vec![1, 0], record.repeat(count)].concat()));
            assert_eq!(unpack(&good[..good.len() - 1]), (3, 0));
            assert_eq!(unpack(&[&good[..], &[0]].concat()), (3, 0));
            assert_eq!(unpack(&[&good[..], &record[1..]].concat()), (3, 0));
            assert_eq!(unpack(&good[..6 + count]), (3, 0));
        }
    }
}

#[test]
fn counts() {
    let good = archive(2, &[&[4, 6], &[0; 8]]);
    assert!(unpacked(&good).is_ok());
    let with_count = |count: u32| {
        let mut archive = good.clone();
        archive[2..6].copy_from_slice(&count.to_be_bytes());
        unpack(&archive)
    };
    // Fewer kinds leave more octets behind them, more take the first octets of bodies for kinds.
    assert_eq!((with_count(0), with_count(1)), ((3, 0), (3, 0)));
    assert_eq!((with_count(3), with_count(10)), ((4, 3), (4, 3)));
    for count in [11, 256, 0x0200, 0x0001_0002, 0x0100_0002, 0x0200_0000, 0x8000_0002] {
        assert_eq!(with_count(count), (3, 0), "{count}");
    }
    // Those that any product or sum would carry past 32 bits.
    for count in (u32::MAX - 80..=u32::MAX).chain([1 << 30, 1 << 31, u32::MAX / 4 + 1, u32::MAX / 5 + 1]) {
        assert_eq!(with_count(count), (3, 0), "{count}");
        assert_eq!(unpack(&archive(count, &[])), (3, 0));
    }
}

/// So many octets, of which the last record is 4 or 5.
fn of_length(length: usize) -> Vec<u8> {
    let mut log = vec![2, 3];
    while !(length - log.len()).is_multiple_of(4) {
        log.extend(release(0xFFFF_FFFF));
    }
    while log.len() < length {
        log.extend(progress(Reference(log.len() as u16 | 1), 10));
    }
    log
}

#[test]
fn the_largest() {
    assert_eq!((LARGEST_LOG, LARGEST_ARCHIVE), (65_536, 65_540));
    for length in [LARGEST_LOG - 1, LARGEST_LOG] {
        let log = of_length(length);
        assert_eq!(log.len(), length);
        let archive = packed(&log).unwrap();
        assert_eq!(archive.len(), length + 4);
        assert_eq!(unpacked(&archive).as_deref(), Ok(log.as_slice()));
    }
    let log = of_length(LARGEST_LOG + 1);
    let list: Vec<&[u8]> = engine::moving::records(&log[2..]).collect();
    let archive = regrouped([2, 3], &list);
    assert_eq!(archive.len(), LARGEST_ARCHIVE + 1);
    assert_eq!((pack(&log), unpack(&archive)), ((5, 0), (5, 0)));
    // Too large comes before whatever else there is.
    assert_eq!(pack(&[vec![1, 0], vec![0; LARGEST_LOG - 1]].concat()), (5, 0));
    assert_eq!(pack(&[vec![1, 0], vec![0; LARGEST_LOG - 2]].concat()), (4, 1));
    for front in [[0, 0, 0, 0], [0, 0, 0, 1], [255; 4]] {
        assert_eq!(unpack(&[&[1, 0], &front[..], &vec![0; LARGEST_ARCHIVE - 5]].concat()), (5, 0));
    }
    assert_eq!(unpack(&[&[1, 0, 0, 0, 0, 0], vec![0; LARGEST_ARCHIVE - 6].as_slice()].concat()), (3, 0));
    assert_eq!(unpack(&[&[1, 0, 0, 0, 0, 1], vec![0; LARGEST_ARCHIVE - 6].as_slice()].concat()), (4, 1));
    assert_eq!(unpack(&[&[1, 0], vec![255; LARGEST_ARCHIVE - 2].as_slice()].concat()), (3, 0));
}

#[test]
fn targets() {
    let log = log(&[&release(7), &progress(Reference(1), 4), &release(9)]);
    let archive = packed(&log).unwrap();
    for (work, from, to) in [(Work::Pack, &log, &archive), (Work::Unpack, &archive, &log)] {
        for length in 0..to.len() {
            let mut target = vec![0x5A; length];
            assert_eq!(work.into(from, &mut target), Answer { returned: 1, written: 0 });
            assert_eq!(target, vec![0x5A; length]);
        }
        for more in [0, 1, 4, 100] {
            let mut target = vec![0x5A; to.len() + more];
            assert_eq!(work.into(from, &mut target), Answer { returned: 0, written: to.len() });
            assert_eq!(target[..to.len()], to[..]);
            assert!(target[to.len()..].iter().all(|&octet| octet == 0x5A));
        }
    }
}
