//! What the program of the attendant's console writes and ends with.

mod common;

use std::io;

use common::ends::{ended, Broken};
use common::one_of_each_kind;
use engine::attendant::{name, Screen};
use engine::attended::{run, text, LARGEST};
use engine::board::Reference;
use engine::items::{self, next_item, pin, Item};
use engine::records::{open, release};

const USAGE: &str = "usage: ect_console < SCRIPT\n";
const LARGER: &str = "ect_console: the script is larger than 65536 octets\n";

fn of(items: &[&[u8]]) -> Vec<u8> {
    [&[1, 1], &items.concat()[..]].concat()
}

fn text_of(items: &[&[u8]]) -> String {
    text(&of(items), Screen::EMPTY)
}

#[test]
fn the_worked_script() {
    let hex = "01 01
        01 0001 00000007 00 00 02 3231 00000000000000000000000000
        00 00000007
        00 00000007
        04 00000007
        FF 0C 576172642C2057696E672042 02 3231";
    let digits: String = hex.split_whitespace().collect();
    let octet = |place: usize| u8::from_str_radix(&digits[place..place + 2], 16).unwrap();
    let script: Vec<u8> = (0..digits.len()).step_by(2).map(octet).collect();
    let lines = "1 event 0 -\n2 pin 0 1:7:user\n3 pin 17 1:7:user\n4 event 0 -\n5 name 57617264\n";
    assert_eq!(run(&[], script.as_slice()), ended(lines.as_bytes(), "", 0));
    let call = open(Reference(1), 7, 0, 0, b"21");
    let built = of(&[&call, &pin(7), &pin(7), &release(7), &items::name(b"Ward, Wing B", b"21")]);
    assert_eq!(script, built);
}

#[test]
fn names() {
    let cases: [(&[u8], &[u8], &[u8]); 18] = [
        (b"Ward 4, Wing B", b"21", b"Ward 4"),
        (b"Ward 4", b"21", b"Ward 4"),
        (b", Wing B", b"21", b"21"),
        (b"", b"21", b"21"),
        (b" ,", b"21", b" "),
        (b"Ward 4 , Wing B", b"21", b"Ward 4 "),
        (b" Ward 4", b"21", b" Ward 4"),
        (b"Ward, Wing, B", b"21", b"Ward"),
        (b",Ward,", b"21", b"21"),
        (b",", b"21", b"21"),
        (b",,", b"", b""),
        (b",", b"", b""),
        (b"", b"", b""),
        (b"Ward,", b"", b"Ward"),
        (b"", b"2,1", b"2,1"),
        (b"", b" 21 ", b" 21 "),
        (b"", b",", b","),
        (&[0xAC, 0, 0xFF, 0x2C, 1], b"", &[0xAC, 0, 0xFF]),
    ];
    for (line, digits, expected) in cases {
        assert_eq!(name(line, digits), expected, "{line:?} {digits:?}");
        let hex: String = expected.iter().map(|octet| format!("{octet:02x}")).collect();
        let shown = if hex.is_empty() { "-" } else { &hex };
        assert_eq!(text_of(&[&items::name(line, digits)]), format!("1 name {shown}\n"));
    }
    let (line, digits) = ([b'a'; 255], [b'1'; 255]);
    assert_eq!(name(&line, &digits), line);
    assert_eq!(text_of(&[&items::name(&[b','; 255], &digits)]), format!("1 name {}\n", "31".repeat(255)));
}

#[test]
fn options() {
    for script in [vec![], vec![0], vec![3, 0], vec![1, 4], vec![255, 255], [&[3, 0], &pin(0)[..]].concat()] {
        assert_eq!(run(&[], script.as_slice()), ended(b"bad options\n", "", 0));
    }
    for first in 0..=2 {
        for second in 0..=3 {
            assert_eq!(run(&[], [first, second].as_slice()), ended(b"", "", 0));
        }
    }
}

/// What stands behind an item that is cut, or of an unknown kind, is not read.
#[test]
fn cut_items() {
    for length in 1..5 {
        assert_eq!(text_of(&[&pin(7), &pin(7)[..length]]), "1 pin 16 -\n2 cut\n");
    }
    for whole in [items::name(b"Wa", b"21"), items::name(b"", b""), items::name(b"", b"2")] {
        for length in 1..whole.len() {
            assert_eq!(text_of(&[&whole[..length]]), "1 cut\n", "{:02x?}", &whole[..length]);
        }
        assert_ne!(text_of(&[&whole]), "1 cut\n");
    }
    for record in one_of_each_kind() {
        for length in 1..record.len() {
            assert_eq!(text_of(&[&pin(9), &record[..length]]), "1 pin 16 -\n2 event 3 -\n");
        }
    }
    for kind in 10..=254 {
        assert_eq!(text_of(&[&[kind], &pin(9)]), "1 event 4 -\n");
        assert_eq!(text_of(&[&[kind]]), "1 event 4 -\n");
    }
}

/// A refused event that is whole does not end the script; a shown line stays in a cut item's text.
#[test]
fn screens_at_refused_and_cut_events() {
    let call = open(Reference(1), 7, 0, 0, b"");
    assert_eq!(
        text_of(&[&call, &pin(7), &call, &release(8), &release(7)[..3]]),
        "1 event 0 -\n2 pin 0 1:7:user\n3 event 6 1:7:user\n4 event 10 1:7:user\n5 event 3 1:7:user\n"
    );
    assert_eq!(text_of(&[&call, &pin(7), &[10]]), "1 event 0 -\n2 pin 0 1:7:user\n3 event 4 1:7:user\n");
    assert_eq!(text_of(&[&call, &pin(7), &[0]]), "1 event 0 -\n2 pin 0 1:7:user\n3 cut\n");
}

#[test]
fn items_one_by_one() {
    assert_eq!(next_item(&[]), None);
    assert_eq!(next_item(&[0, 1, 2, 3, 4, 5]), Some((Item::Pin(0x0102_0304), [5].as_slice())));
    assert_eq!(
        next_item(&[255, 1, 9, 2, 7, 8, 0]),
        Some((Item::Name { line: &[9], digits: &[7, 8] }, [0].as_slice()))
    );
    assert_eq!(next_item(&[4, 0, 0, 0, 1, 255]), Some((Item::Event(&[4, 0, 0, 0, 1]), [255].as_slice())));
    assert_eq!(next_item(&[255, 1, 9, 2, 7]), Some((Item::Cut, [].as_slice())));
}

#[test]
fn as_large_as_may_be() {
    // Names of three octets, and a pin.
    let most = [&[1, 1], &items::name(b"", b"").repeat(21_843)[..], &pin(7)].concat();
    assert_eq!(most.len(), LARGEST);
    let done = run(&[], most.as_slice());
    assert_eq!((done.status, done.errors.len()), (0, 0));
    assert!(done.output.ends_with(b"\n21843 name -\n21844 pin 16 -\n"));
    for more in [1, 3, 1_000_000] {
        let larger = [most.clone(), vec![0; more]].concat();
        assert_eq!(run(&[], larger.as_slice()), ended(&[], LARGER, 1));
    }
    // Before the options are looked at.
    assert_eq!(run(&[], io::repeat(9)), ended(&[], LARGER, 1));
}

#[test]
fn words() {
    assert_eq!(run(&[], Broken), ended(&[], "ect_console: cannot read\n", 1));
    assert_eq!(run(&["--help"], Broken), ended(USAGE.as_bytes(), "", 0));
    let wrong: [&[&str]; 5] = [&[""], &["-h"], &["script"], &["--help", "x"], &["--help", "--help"]];
    for words in wrong {
        assert_eq!(run(words, Broken), ended(&[], USAGE, 2));
    }
}
