//! What the program that moves logs writes and ends with; and that the comparison accepts no difference.

mod common;

use std::io;

use common::ends::{ended, Broken};
use engine::ended::differs;
use engine::mover::{run, LARGEST};

const USAGE: &str = "usage: ect_move new|old [FILE]\n";
const TOO_LARGE: &str = "ect_move: the log is larger than 65536 octets: name its file\n";

#[test]
fn moved_and_refused() {
    let release = [4, 0, 0, 0, 7];
    let typed = [&[9, 0, 1, 0, 0, 0, 7, 0, 0, 1], &[0; 16][..]].concat();
    let log = |records: &[&[u8]]| [&[1, 1], &records.concat()[..]].concat();
    for word in ["new", "old"] {
        let of = |log: &[u8]| run(&[word], log);
        assert_eq!(of(&[1, 3]), ended(&[1, 3], "", 0));
        assert_eq!(of(&log(&[&release])), ended(&log(&[&release]), "", 0));
        assert_eq!(of(&[]), ended(&[], "refused 0\n", 5));
        assert_eq!(of(&[2, 0]), ended(&[2, 0], "", 0));
        assert_eq!(of(&[1, 4]), ended(&[], "refused 0\n", 5));
        assert_eq!(of(&[3, 0]), ended(&[], "refused 0\n", 5));
        assert_eq!(of(&log(&[&release, &release[..4]])), ended(&[], "refused 2\n", 3));
        assert_eq!(of(&log(&[&[0]])), ended(&[], "refused 1\n", 4));
        assert_eq!(of(&log(&[&release.repeat(11), &[2, 0, 0, 4]])), ended(&[], "refused 12\n", 5));
    }
    assert_eq!(run(&["old"], log(&[&release, &typed]).as_slice()), ended(&[], "refused 2\n", 13));
    assert_eq!(run(&["new"], log(&[&typed]).as_slice()), ended(&log(&[&typed]), "", 0));
}

#[test]
fn as_large_as_standard_input_may_give() {
    // 2 octets, 10 and 65,524.
    let log = [&[1, 1], &[4, 0, 0, 0, 7].repeat(2)[..], &[2, 0, 1, 4].repeat(16_381)].concat();
    assert_eq!(log.len(), LARGEST);
    for word in ["new", "old"] {
        assert_eq!(run(&[word], log.as_slice()), ended(&log, "", 0));
        let larger = [&log[..], &[0]].concat();
        assert_eq!(run(&[word], larger.as_slice()), ended(&[], TOO_LARGE, 1));
        assert_eq!(run(&[word], io::repeat(0)), ended(&[], TOO_LARGE, 1));
    }
}

#[test]
fn words() {
    assert_eq!(run(&["new"], Broken), ended(&[], "ect_move: cannot read\n", 1));
    assert_eq!(run(&["old", "no such file"], Broken), ended(&[], "ect_move: cannot read\n", 1));
    for words in [&[] as &[&str], &[""], &["New"], &["both"], &["new", "a", "b"], &["a", "new"]] {
        assert_eq!(run(words, Broken), ended(&[], USAGE, 2));
    }
    assert_eq!(run(&["--help"], Broken).output, USAGE.as_bytes());
}

#[test]
fn each_difference_is_told() {
    let expected = ended(&[1, 1, 4], "refused 3\n", 5);
    assert_eq!(differs(&expected, &expected), None);
    for wrong in [
        ended(&[1, 1], "refused 3\n", 5),
        ended(&[1, 1, 4, 0], "refused 3\n", 5),
        ended(&[1, 1, 5], "refused 3\n", 5),
        ended(&[1, 1, 4], "refused 3", 5),
        ended(&[1, 1, 4], "", 5),
        ended(&[1, 1, 4], "refused 3\n", 4),
    ] {
        assert!(differs(&expected, &wrong).is_some(), "{wrong:?}");
    }
}
