//! The short histories: none missing, each once, in order; and the logs made of them.

mod common;

use common::met;
use engine::board::Reference;
use engine::histories::{history, list, records, History};
use engine::history_logs;
use engine::play::play;
use engine::records::{open, release, typed};

/// As the rules have them.
const SIX: [&[u8]; 6] = [
    &[1, 0, 1, 0, 0, 0, 1, 0, 0, 2, 0x32, 0x31, 0, 0, 0, 0, 0, 0, 0, 0, 0, 0, 0, 0, 0],
    &[1, 0, 2, 0, 0, 0, 2, 1, 0, 2, 0x32, 0x31, 0, 0, 0, 0, 0, 0, 0, 0, 0, 0, 0, 0, 0],
    &[2, 0, 1, 10],
    &[2, 0, 2, 10],
    &[4, 0, 0, 0, 1],
    &[4, 0, 0, 0, 2],
];

/// All sequences of at most four numbers, shorter ones first, then in order of the numbers.
fn sequences() -> Vec<Vec<u8>> {
    let mut all = vec![vec![]];
    for a in 0..6 {
        all.push(vec![a]);
        for b in 0..6 {
            all.push(vec![a, b]);
            for c in 0..6 {
                all.push(vec![a, b, c]);
                all.extend((0..6).map(|d| vec![a, b, c, d]));
            }
        }
    }
    all.sort_by(|a, b| a.len().cmp(&b.len()).then(a.cmp(b)));
    assert_eq!(all.len(), 1_555);
    all
}

fn numbers() -> Vec<Vec<u8>> {
    list().iter().map(|history| history.numbers().to_vec()).collect()
}

fn log(numbers: &[u8]) -> Vec<u8> {
    let octets = numbers.iter().flat_map(|&number| SIX[number as usize]);
    [1, 1].iter().chain(octets).copied().collect()
}

/// What each record returns, from the player's text.
fn returned(numbers: &[u8]) -> Vec<u8> {
    let mut text = Vec::new();
    play(&log(numbers), &mut text);
    let text = String::from_utf8(text).unwrap();
    let lines: Vec<&str> = text.lines().collect();
    assert_eq!(lines.len(), numbers.len() + 2, "{text}");
    lines[1..=numbers.len()].iter().map(|line| line.split(' ').nth(2).unwrap().parse().unwrap()).collect()
}

fn accepted(numbers: &[u8]) -> bool {
    returned(numbers).iter().all(|&returned| returned == 0)
}

/// Without a board: each party is gone, there or Active, and the two have nothing to do with each other.
fn accepted_by_thought(numbers: &[u8]) -> bool {
    const GONE: u8 = 0;
    const THERE: u8 = 1;
    const ACTIVE: u8 = 2;
    let mut parties = [GONE; 2];
    numbers.iter().all(|number| {
        let party = &mut parties[*number as usize % 2];
        let (good, now) = match number / 2 {
            0 => (*party == GONE, THERE),
            1 => (*party == THERE, ACTIVE),
            _ => (*party != GONE, GONE),
        };
        *party = now;
        good
    })
}

#[test]
fn the_six_records() {
    assert_eq!(records().each_ref().map(Vec::as_slice), SIX);
}

#[test]
fn so_many_of_each_length() {
    let list = list();
    assert_eq!(list.len(), 71);
    for (length, count) in [1, 2, 6, 16, 46, 0].into_iter().enumerate() {
        assert_eq!(list.iter().filter(|history| history.length == length).count(), count, "{length}");
    }
}

#[test]
fn each_once_and_in_order() {
    for pair in numbers().windows(2) {
        let [one, next] = pair else { unreachable!() };
        assert!((one.len(), one) < (next.len(), next), "{one:?} in front of {next:?}");
    }
}

#[test]
fn none_is_missing() {
    let tests = [accepted as fn(&[u8]) -> bool, accepted_by_thought];
    for test in tests {
        let kept: Vec<_> = sequences().into_iter().filter(|numbers| test(numbers)).collect();
        assert_eq!(numbers(), kept);
    }
}

#[test]
fn places() {
    let at = |place, length, places| assert_eq!(history(place), (0, History { length, places }), "{place}");
    at(0, 0, [0, 0, 0, 0]);
    at(1, 1, [0, 0, 0, 0]);
    at(2, 1, [1, 0, 0, 0]);
    at(3, 2, [0, 1, 0, 0]);
    at(8, 2, [1, 5, 0, 0]);
    at(25, 4, [0, 1, 2, 3]);
    at(70, 4, [1, 5, 1, 5]);
    for place in [71, 72, 255, 256, u32::MAX as usize, usize::MAX - 1, usize::MAX] {
        assert_eq!(history(place), (15, History { length: 0, places: [0; 4] }), "{place}");
    }
}

#[test]
fn every_place_has_what_the_list_has() {
    for (place, numbers) in numbers().iter().enumerate() {
        let (returned, History { length, places }) = history(place);
        assert_eq!((returned, length, &places[..length]), (0, numbers.len(), &numbers[..]));
        assert!(places[length..].iter().all(|&number| number == 0));
    }
}

/// Each history is a whole log, and so is each with an event behind it that is refused.
#[test]
fn the_logs() {
    let logs = history_logs::logs();
    let refused = |numbers: &Vec<u8>| {
        numbers.split_last().is_some_and(|(_, front)| accepted(front)) && !accepted(numbers)
    };
    let (kept, last): (Vec<_>, Vec<_>) = (numbers(), sequences().into_iter().filter(refused).collect());
    assert_eq!((kept.len(), last.len()), (71, 80));
    assert_eq!(logs, kept.iter().chain(&last).map(|numbers| log(numbers)).collect::<Vec<_>>());
}

/// Each of the logs is counted as one occurrence, as they are by what their records return.
#[test]
fn what_occurs_in_the_logs() {
    for numbers in sequences() {
        let met: Vec<String> =
            met(&log(&numbers)).into_iter().filter(|text| text.starts_with("short history ")).collect();
        let returned = returned(&numbers);
        let length = returned.iter().take_while(|&&returned| returned == 0).count();
        let of = match length {
            0 => "short history of no record".to_string(),
            1 => "short history of 1 record".to_string(),
            _ => format!("short history of {length} records"),
        };
        match &returned[length..] {
            [] => assert_eq!(met, [of]),
            [last] => assert_eq!(met, [format!("{of}, then {last}")]),
            _ => assert_eq!(met, [""; 0]),
        }
    }
}

#[test]
fn other_logs_are_none() {
    let none = |log: &[u8]| {
        assert!(!met(log).iter().any(|text| text.starts_with("short history ")), "{log:02x?}");
    };
    let two = &log(&[0, 1])[2..];
    for options in common::OPTIONS.into_iter().filter(|&options| options != (1, 1)) {
        none(&[&[options.0, options.1], two].concat());
    }
    none(&log(&[0, 1, 4, 5, 0]));
    none(&log(&[0, 1, 4, 5, 4]));
    none(&log(&[4, 0]));
    none(&log(&[0])[..26]);
    for other in [typed(SIX[0].to_vec(), 0), open(Reference(1), 3, 0, 0, b"21"), release(3)] {
        none(&[&[1, 1], &other[..]].concat());
    }
    none(&[1, 1, 0]);
    none(&[1]);
}
