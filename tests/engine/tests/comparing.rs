//! The comparison accepts no difference at all.

mod common;

use common::ID;
use engine::board::{LinkId, Reference};
use engine::compare::compare;
use engine::event::{event, event_on_sound};
use engine::load;
use engine::logs::{steered, Logs};
use engine::notice::watch;
use engine::play::{next_record, play, play_tested_once, start};
use engine::records;
use engine::rng::Rng;
use engine::tally::Tally;

/// The text of a log with calls 1 and 2, of which 1 is held, and one transfer.
fn transfer_by(named: u16, component: &[u8]) -> Vec<u8> {
    let mut log = vec![1, 1];
    for reference in [1, 2] {
        log.extend(records::open(Reference(reference), reference as u32, 0, 0, b"12"));
        log.extend(records::progress(Reference(reference), 10));
    }
    log.extend(records::hold(Reference(1), 1));
    log.extend(records::hold(Reference(1), 2));
    log.extend(records::facility(Reference(3 - named), &records::link_request(ID)));
    log.extend(records::facility(Reference(named), component));
    let mut text = Vec::new();
    play(&log, &mut text);
    text
}

fn transfer() -> Vec<u8> {
    transfer_by(1, &records::execute(ID))
}

/// The line of the transfer differs, whichever of the two texts is the expected one.
#[test]
fn drops_in_the_other_order_are_a_difference() {
    for component in [records::execute(ID), records::explicit_link(ID, LinkId(0))] {
        for (named, drops) in [(1, "830001830002"), (2, "830002830001")] {
            let text = String::from_utf8(transfer_by(named, &component)).unwrap();
            assert_eq!(text.matches(drops).count(), 1, "{text}");
            let (first, second) = drops.split_at(6);
            for other in [[second, first], [first, first], [second, second]] {
                let changed = text.replace(drops, &other.concat());
                assert_eq!(compare(text.as_bytes(), changed.as_bytes()).unwrap_err().line, 9);
                assert_eq!(compare(changed.as_bytes(), text.as_bytes()).unwrap_err().line, 9);
            }
        }
    }
}

#[test]
fn every_octet_counts() {
    let text = transfer();
    for place in 0..text.len() {
        let mut changed = text.clone();
        changed[place] ^= 1;
        assert!(compare(&text, &changed).is_err(), "octet {place}");
        assert!(compare(&text, &text[..place]).is_err());
        assert!(compare(&text[..place], &text).is_err());
    }
    assert_eq!(compare(&text, &text), Ok(()));
    assert!(compare(&text, &[text.as_slice(), b"\n"].concat()).is_err());
}

#[test]
fn tells_in_the_other_order_are_a_difference() {
    let text = transfer();
    let reply = text.windows(3).rposition(|part| part == b" 81").unwrap() + 1;
    // Reply and Drops take 42 octets, each Tell 25.
    let mut swapped = text.clone();
    swapped[reply + 84..reply + 184].rotate_left(50);
    assert_ne!(text, swapped);
    assert_eq!(compare(&text, &swapped).unwrap_err().line, 9);
}

#[test]
fn the_same_seed_gives_the_same_logs() {
    let some = |seed| {
        let mut rng = Rng::new(seed);
        (0..50).map(|_| steered(&mut rng)).collect::<Vec<_>>()
    };
    assert_eq!(some(4), some(4));
    assert_ne!(some(4), some(5));
    assert_eq!(Logs::new(3).next(), Logs::new(3).next());
}

/// The engine keeps to what holds of every event; see `watch`.
#[test]
fn nothing_forbidden_happens() {
    let mut rng = Rng::new(21);
    let mut tally = Tally::default();
    for _ in 0..300 {
        let log = steered(&mut rng);
        assert_eq!(watch(&log, &mut tally), Ok(()));
    }
    assert!(tally.events > 5_000);
}

/// With soundness known, each event returns and leaves the same.
#[test]
fn tested_or_known_to_be_sound() {
    let mut rng = Rng::new(41);
    for _ in 0..60 {
        let log = steered(&mut rng);
        let Some((mut tested, mut rest)) = start(&log) else { continue };
        let mut known = tested.clone();
        while let Some((record, after)) = next_record(rest) {
            let (mut a, mut b) = ([0; 128], [0; 128]);
            let answer = event(&mut tested, record, &mut a);
            assert_eq!(answer, event_on_sound(&mut known, record, &mut b));
            assert_eq!((&tested, a), (&known, b));
            rest = after;
        }
    }
}

/// The two players that are timed give one text.
#[test]
fn tested_once_or_at_each_event() {
    let mut rng = Rng::new(31);
    let mut logs: Vec<_> = (0..200).map(|_| steered(&mut rng)).collect();
    logs.extend([4, 16, 64].map(|legs| load::log(&mut rng, legs, 2_000).0));
    logs.extend([vec![], vec![1], vec![2, 0], vec![3, 0], vec![1, 1], vec![1, 3], vec![0, 4]]);
    for log in &logs {
        let (mut each, mut once) = (Vec::new(), Vec::new());
        assert_eq!(play(log, &mut each), play_tested_once(log, &mut once));
        assert_eq!(each, once, "log {log:02x?}");
    }
}
