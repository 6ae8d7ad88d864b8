//! Made scripts, and those that no seed changes: the console keeps to what holds of every item.

use engine::attendant::Screen;
use engine::attended::text;
use engine::each_script;
use engine::items::{next_item, Item};
use engine::play::start;
use engine::rng::Rng;
use engine::screen_scripts::{script, whole};
use engine::screened::watch;
use engine::tally::Tally;

#[test]
fn nothing_forbidden_happens() {
    let (mut rng, mut tally) = (Rng::new(101), Tally::of_screens());
    let mut scripts: Vec<Vec<u8>> =
        each_script::scripts(&mut rng).into_iter().filter(|script| script.len() < 5_000).collect();
    scripts.extend((0..150).map(|_| script(&mut rng)));
    for script in &scripts {
        assert_eq!(watch(script, Screen::EMPTY, &mut tally), Ok(()));
    }
    let met = tally.met();
    let has = |text: &str| assert!(met.iter().any(|met| met == text), "{text}");
    has("pin: 0, line 16");
    has("pin: 16, shown until its partner's Release");
    has("pin: 17, no line empty");
    has("pin: 18, 64 legs on the board");
    has("event with all lines taken: kind 4 accepted");
    has("screen: two lines become empty, others between them");
    has("European: transfer, both shown and all lines taken");
    has("name: a line of 255 octets, a comma last and no other");
    has("script: all lines taken, all legs of ten figures");
}

#[test]
fn the_same_seed_gives_the_same_scripts() {
    let some = |seed| {
        let mut rng = Rng::new(seed);
        (0..50).map(|_| script(&mut rng)).collect::<Vec<_>>()
    };
    assert_eq!(some(4), some(4));
    assert_ne!(some(4), some(5));
}

/// A text has a line for each item, and items that are whole end with the script's octets.
#[test]
fn a_line_for_each_item() {
    let mut rng = Rng::new(111);
    for _ in 0..200 {
        let script = script(&mut rng);
        let text = text(&script, Screen::EMPTY);
        let Some((_, mut rest)) = start(&script) else {
            assert_eq!(text, "bad options\n");
            continue;
        };
        let mut lines = text.lines();
        for number in 1.. {
            let Some((item, after)) = next_item(rest) else { break };
            let line = lines.next().unwrap();
            let word = match item {
                Item::Pin(_) => "pin",
                Item::Name { .. } => "name",
                Item::Event(_) => "event",
                Item::Cut => "cut",
            };
            assert!(line.starts_with(&format!("{number} {word}")), "{line}");
            rest = after;
        }
        assert_eq!(lines.next(), None);
    }
}

/// Items that are put together for a longer script are neither cut nor of an unknown kind.
#[test]
fn whole_items() {
    let mut rng = Rng::new(121);
    for _ in 0..200 {
        let script = [&[1, 1], &whole(&mut rng)[..]].concat();
        let text = text(&script, Screen::EMPTY);
        assert!(!text.contains("cut") && !text.contains("event 3 ") && !text.contains("event 4 "), "{text}");
    }
}
