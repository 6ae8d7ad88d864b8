//! Logs that are packed, and archives that are unpacked, whatever the seed: the small ones, records of each
//! kind alone and together, fields, counts, and numbers of one figure to five.

use crate::archive::regrouped;
use crate::board::Reference;
use crate::near_move::of_kind;
use crate::records::progress;
use crate::rng::Rng;
use crate::wrong_field;

/// Places of the first bad record; of the shortest ones that a log holds there are 16,383.
const PLACES: [usize; 10] = [1, 9, 10, 99, 100, 999, 1_000, 9_999, 10_000, 16_383];

type Records = Vec<Vec<u8>>;

fn log(options: [u8; 2], list: &[Vec<u8>]) -> Vec<u8> {
    [&options[..], &list.concat()].concat()
}

fn archive(options: [u8; 2], list: &[Vec<u8>]) -> Vec<u8> {
    let slices: Vec<&[u8]> = list.iter().map(Vec::as_slice).collect();
    regrouped(options, &slices)
}

fn short_ones(count: usize) -> Records {
    (0..count).map(|number| progress(Reference(number as u16 | 1), 10)).collect()
}

fn some(rng: &mut Rng, kind: u8, count: usize) -> Records {
    (0..count).map(|_| of_kind(rng, kind)).collect()
}

/// Lists of good records: each kind alone, and so many kinds with one record or several, both ways round.
fn good(rng: &mut Rng) -> Vec<Records> {
    let mut lists = Vec::new();
    for kind in 1..=9 {
        lists.extend([1, 2, 3].map(|count| some(rng, kind, count)));
        let beside = 1 + kind % 9;
        lists.extend(
            [[(kind, 1), (beside, 3)], [(beside, 1), (kind, 3)]]
                .map(|list| list.into_iter().flat_map(|(kind, count)| some(rng, kind, count)).collect()),
        );
    }
    for kinds in 1..=9 {
        for single in 0..=kinds {
            let mut list: Records = (1..=kinds)
                .flat_map(|kind| some(rng, kind, if kind <= single { 1 } else { 2 + usize::from(kind) % 4 }))
                .collect();
            lists.push(list.clone());
            list.reverse();
            lists.push(list.clone());
            let middle = list.len() / 2;
            list.rotate_left(middle);
            lists.push(list);
        }
    }
    lists.extend([255, 256, 257, 16_383].map(short_ones));
    lists
}

/// Lists with the bad records between good ones of their kind, and a later one that is bad too.
fn bad(rng: &mut Rng) -> Vec<Records> {
    let mut lists = Vec::new();
    for field in wrong_field::FIELDS {
        let record = wrong_field::with(rng, field);
        let (before, behind) = (of_kind(rng, field.0), of_kind(rng, field.0));
        lists.push(vec![record.clone()]);
        lists.push(vec![before, record.clone(), behind]);
        let later = wrong_field::any(rng);
        lists.push(vec![progress(Reference(1), 4), record, later]);
    }
    for kind in [2, 3] {
        lists.push([(kind, 3, 12), (kind, 1, 0)].map(|field| wrong_field::with(rng, field)).to_vec());
    }
    lists.push([(3, 3, 4), (2, 3, 5)].map(|field| wrong_field::with(rng, field)).to_vec());
    lists
}

/// All options and bad ones next to them.
fn options() -> Vec<[u8; 2]> {
    let good = (0..=2).flat_map(|first| (0..=3).map(move |second| [first, second]));
    good.chain([[0, 4], [1, 4], [2, 4], [2, 255], [3, 0], [3, 3], [4, 1], [255, 1], [3, 4], [255, 255]])
        .collect()
}

pub fn logs(rng: &mut Rng) -> Vec<Vec<u8>> {
    let mut logs = vec![vec![]];
    logs.extend([0, 1, 2, 3, 255].map(|octet| vec![octet]));
    logs.extend(options().into_iter().map(Vec::from));
    logs.extend((0..=10).chain([255]).map(|kind| vec![1, 1, kind]));
    logs.extend([[3, 0, 0], [3, 0, 4], [1, 4, 10]].map(Vec::from));
    logs.extend(good(rng).iter().chain(&bad(rng)).map(|list| log([2, 1], list)));
    for place in PLACES {
        let front = log([0, 2], &short_ones(place - 1));
        logs.extend([[4, 0, 0].as_slice(), &[0], &[2, 0, 0, 4]].map(|bad| [&front, bad].concat()));
    }
    for (unknown, behind) in [(0, 4), (10, 2), (200, 3)] {
        let record = of_kind(rng, 2);
        logs.push([&log([1, 0], &short_ones(2))[..], &[unknown], &record[..behind]].concat());
    }
    logs
}

pub fn archives(rng: &mut Rng) -> Vec<Vec<u8>> {
    let mut archives = Vec::new();
    for options in options() {
        archives.extend((0..=8).map(|length| [options[0], options[1], 0, 0, 0, 0, 0, 0][..length].to_vec()));
        archives.push([&options[..], &[255; 5]].concat());
    }
    archives.extend(bad(rng).iter().map(|list| archive([2, 1], list)));
    for list in good(rng).iter().take(45) {
        archives.extend(wrong_length(rng, list));
    }
    archives.extend(counts(rng));
    archives.extend(pairs(rng));
    for place in PLACES {
        let mut list = short_ones(place);
        let mut unknown = archive([0, 2], &list);
        unknown[5 + place] = 11;
        list[place - 1][3] = 0;
        archives.extend([unknown.clone(), archive([0, 2], &list), unknown, archive([0, 2], &list)]);
    }
    archives
}

/// Bodies too short and too long by one octet and by those of one record.
fn wrong_length(rng: &mut Rng, list: &Records) -> [Vec<u8>; 5] {
    let good = archive([1, 2], list);
    let body = list[0].len() - 1;
    let noise: Vec<u8> = (0..body).map(|_| rng.octet()).collect();
    [
        good[..good.len() - 1].to_vec(),
        [&good[..], &[0]].concat(),
        good[..good.len() - body].to_vec(),
        [&good, &noise[..]].concat(),
        good[..6 + list.len()].to_vec(),
    ]
}

/// No, one or three records under counts of all sizes.
fn counts(rng: &mut Rng) -> Vec<Vec<u8>> {
    let mut archives = Vec::new();
    for records in [0, 1, 3] {
        let good = archive([1, 1], &some(rng, 4, records));
        let there = (good.len() - 6) as u32;
        let near = [there, there + 1, there + 2, there + 65_535, there + 65_536];
        let right = records as u32;
        let far =
            [1 << 8, 1 << 16, 1 << 24, 1 << 30, 1 << 31, u32::MAX - 79, u32::MAX - 4].map(|far| far + right);
        for count in near.into_iter().chain(far).chain([u32::MAX, u32::MAX - 1, u32::MAX / 5 + 1]) {
            let mut archive = good.clone();
            archive[2..6].copy_from_slice(&count.to_be_bytes());
            archives.push(archive);
        }
    }
    archives
}

/// Two faults: the options with each other, an unknown kind and a length with each that would follow.
fn pairs(rng: &mut Rng) -> Vec<Vec<u8>> {
    let wrong = wrong_field::with(rng, (2, 3, 5));
    let field = archive([1, 1], &[wrong.clone(), of_kind(rng, 4)]);
    let mut kinds_cut = field.clone();
    kinds_cut[5] = 100;
    let mut unknown = field.clone();
    unknown[7] = 77;
    let (shorter, longer) = (field[..field.len() - 1].to_vec(), [&field[..], &[0]].concat());
    let count_cut = field[..5].to_vec();
    let mut archives = Vec::new();
    for mut archive in [count_cut, kinds_cut, unknown, shorter, longer, field] {
        archives.push(archive.clone());
        for options in [[1, 4], [3, 0]] {
            archive[..2].copy_from_slice(&options);
            archives.push(archive.clone());
        }
    }
    for behind in [0, 3, 5, 72, 73, 200] {
        let body: Vec<u8> = wrong[1..].iter().copied().chain(std::iter::repeat(0)).take(behind).collect();
        archives.push([&[1, 1, 0, 0, 0, 2, 2, 10], &body[..]].concat());
        archives.push([&[1, 1, 0, 0, 0, 2, 0, 2], &body[..]].concat());
        archives.push([&[1, 1, 0, 0, 0, 3, 0, 255, 10], &body[..]].concat());
        archives.push([&[1, 1, 0, 0, 0, 0], &body[..]].concat());
        archives.push([&[1, 1, 0, 0, 3, 0, 0], &body[..]].concat());
    }
    archives
}
