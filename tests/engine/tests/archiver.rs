//! What the program that packs and unpacks logs writes and ends with.

mod common;

use std::io;

use common::ends::{ended, Broken};
use engine::archive::{packed, LARGEST_ARCHIVE, LARGEST_LOG};
use engine::archiver::run;

const USAGE: &str = "usage: ect_archive pack|unpack [FILE]\n";

#[test]
fn packed_and_refused() {
    let release = [4, 1, 2, 3, 4];
    let log = |records: &[&[u8]]| [&[1, 1], &records.concat()[..]].concat();
    let of = |log: &[u8]| run(&["pack"], log);
    assert_eq!(of(&[1, 3]), ended(&[1, 3, 0, 0, 0, 0], "", 0));
    assert_eq!(of(&log(&[&release])), ended(&[1, 1, 0, 0, 0, 1, 4, 1, 2, 3, 4], "", 0));
    assert_eq!(of(&[]), ended(&[], "refused 0\n", 5));
    assert_eq!(of(&[3, 0]), ended(&[], "refused 0\n", 5));
    assert_eq!(of(&log(&[&release, &release[..4]])), ended(&[], "refused 2\n", 3));
    assert_eq!(of(&log(&[&[0]])), ended(&[], "refused 1\n", 4));
    assert_eq!(of(&log(&[&release.repeat(11), &[2, 0, 0, 4]])), ended(&[], "refused 12\n", 5));
}

#[test]
fn unpacked_and_refused() {
    let of = |archive: &[u8]| run(&["unpack"], archive);
    assert_eq!(of(&[1, 3, 0, 0, 0, 0]), ended(&[1, 3], "", 0));
    assert_eq!(of(&[1, 1, 0, 0, 0, 1, 4, 1, 2, 3, 4]), ended(&[1, 1, 4, 1, 2, 3, 4], "", 0));
    assert_eq!(of(&[1]), ended(&[], "refused 0\n", 5));
    assert_eq!(of(&[1, 4, 0, 0, 0, 0]), ended(&[], "refused 0\n", 5));
    assert_eq!(of(&[1, 1, 0, 0, 0]), ended(&[], "refused 0\n", 3));
    assert_eq!(of(&[1, 1, 255, 255, 255, 255, 10]), ended(&[], "refused 0\n", 3));
    assert_eq!(of(&[1, 1, 0, 0, 0, 3, 4, 10, 0]), ended(&[], "refused 2\n", 4));
    assert_eq!(of(&[1, 1, 0, 0, 0, 1, 4, 1, 2, 3]), ended(&[], "refused 0\n", 3));
    assert_eq!(of(&[1, 1, 0, 0, 0, 2, 3, 2, 0, 1, 0, 1, 0, 3]), ended(&[], "refused 2\n", 5));
}

#[test]
fn as_large_as_may_be() {
    // 2 octets, 10 and 65,524.
    let log = [&[1, 1], &[4, 0, 0, 0, 7].repeat(2)[..], &[2, 0, 1, 4].repeat(16_381)].concat();
    assert_eq!(log.len(), LARGEST_LOG);
    let archive = packed(&log).unwrap();
    assert_eq!(archive.len(), LARGEST_ARCHIVE);
    assert_eq!(run(&["pack"], log.as_slice()), ended(&archive, "", 0));
    assert_eq!(run(&["unpack"], archive.as_slice()), ended(&log, "", 0));
    for (word, octets) in [("pack", log), ("unpack", archive)] {
        for more in [1, 4, 5, 1_000_000] {
            let larger = [octets.clone(), vec![0; more]].concat();
            assert_eq!(run(&[word], larger.as_slice()), ended(&[], "refused 0\n", 5));
        }
        assert_eq!(run(&[word], io::repeat(1)), ended(&[], "refused 0\n", 5));
    }
}

#[test]
fn words() {
    assert_eq!(run(&["pack"], Broken), ended(&[], "ect_archive: cannot read\n", 1));
    assert_eq!(run(&["unpack", "no such file"], Broken), ended(&[], "ect_archive: cannot read\n", 1));
    let wrong: [&[&str]; 8] = [
        &[],
        &[""],
        &["Pack"],
        &["packed"],
        &["new"],
        &["pack", "a", "b"],
        &["a", "unpack"],
        &["--help", "pack"],
    ];
    for words in wrong {
        assert_eq!(run(words, Broken), ended(&[], USAGE, 2));
    }
    assert_eq!(run(&["--help"], Broken), ended(USAGE.as_bytes(), "", 0));
}
