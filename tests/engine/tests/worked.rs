//! The worked log and the form of the text.

mod common;

use engine::board::Reference;
use engine::play::play;
use engine::records;

fn text(log: &[u8]) -> String {
    let mut text = Vec::new();
    play(log, &mut text);
    String::from_utf8(text).unwrap()
}

#[test]
fn worked_log() {
    let mut log = vec![1, 0];
    log.extend([1, 0, 1, 0, 0, 0, 7, 0, 0, 2, b'2', b'1']);
    log.extend([0; 13]);
    for reference in [1, 2] {
        log.extend([5, 0, reference, 13, 0xA1, 0x0B, 2, 1, 5, 6, 6, 4, 0, 0x82, 0x71, 1, 4]);
        log.extend([0; 19]);
    }
    let expected = "ect 1\n\
        1 1 0 -\n\
        2 5 0 81000112a210020105300b06060400827101040201000000000000000000000000000000\n\
        3 5 9 -\n\
        end 1 0 1\n";
    assert_eq!(text(&log), expected);
}

#[test]
fn options() {
    let short: [&[u8]; 4] = [&[], &[0], &[1], &[2]];
    let bad: [&[u8]; 7] = [&[3, 0], &[0, 4], &[1, 4], &[2, 4], &[3, 3], &[255, 255], &[0, 4, 4, 0, 0, 0, 0]];
    for bad in short.iter().chain(&bad) {
        assert_eq!(text(bad), "bad options\n");
    }
    for (subscribed, alerting) in common::OPTIONS {
        assert_eq!(text(&[subscribed, alerting]), "ect 1\nend 0 0 0\n");
    }
}

#[test]
fn unknown_kind_stops_the_reading() {
    assert_eq!(text(&[0, 0, 0]), "ect 1\n1 0 4 -\nend 0 0 0\n");
    assert_eq!(text(&[0, 0, 255, 4, 0, 0, 0, 0]), "ect 1\n1 255 4 -\nend 0 0 0\n");
    assert_eq!(text(&[0, 0, 4, 0, 0, 0, 9, 10]), "ect 1\n1 4 10 -\n2 10 4 -\nend 0 0 0\n");
}

#[test]
fn cut_record_stops_the_reading() {
    assert_eq!(text(&[0, 0, 4]), "ect 1\n1 4 3 -\nend 0 0 0\n");
    assert_eq!(text(&[0, 0, 4, 0, 0, 0]), "ect 1\n1 4 3 -\nend 0 0 0\n");
    let mut log = vec![1, 1];
    log.extend(records::open(Reference(3), 4, 1, 1, b"5"));
    log.extend(&records::facility(Reference(3), &records::execute(&[2, 1, 1]))[..35]);
    assert_eq!(text(&log), "ect 1\n1 1 0 -\n2 5 3 -\nend 1 0 0\n");
}

#[test]
fn refused_records_are_numbered_and_reading_goes_on() {
    let mut log = vec![1, 1];
    for _ in 0..11 {
        log.extend(records::release(9));
    }
    log.extend(records::open(Reference(0x8000), 4, 1, 1, b"5"));
    let text = text(&log);
    let lines: Vec<&str> = text.lines().collect();
    assert_eq!(lines[11..], ["11 4 10 -", "12 1 5 -", "end 0 0 0"]);
}
