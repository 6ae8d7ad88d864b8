//! Opens of both kinds as they are judged a second time, and what of them occurs in logs.

mod common;

use common::{met, Desk};
use engine::board::{Board, Call, CallState, Number, Reference, Standing};
use engine::event::event;
use engine::notice::Moment;
use engine::opened::stands;
use engine::records::{open, release, typed};

/// What a wrong program would have done at an event is at fault; what was done is not.
fn judged(before: &Board, record: &[u8], wrong: impl Fn(&mut u8, &mut Board)) -> Result<(), String> {
    let (mut after, mut buffer) = (before.clone(), [0; 128]);
    let mut returned = event(&mut after, record, &mut buffer).returned;
    let judge = |returned, after: &Board| stands(&Moment { before, after, record, returned, written: &[] });
    assert_eq!(judge(returned, &after), Ok(()));
    wrong(&mut returned, &mut after);
    judge(returned, &after)
}

type Wrong = fn(&mut u8, &mut Board);

#[test]
fn wrong_rows_are_faults() {
    let mut desk = Desk::new(1, 2);
    desk.call(1, 0, 10, 0);
    desk.call(2, 1, 7, 0);
    desk.ok(&release(101));
    let wrongs: [Wrong; 8] = [
        |_, board| board.rows[0].number_type = (board.rows[0].number_type + 1) % 3,
        |_, board| board.rows[0].number_type = (board.rows[0].number_type + 2) % 3,
        |_, board| board.rows[0].presentation ^= 1,
        |_, board| board.rows[0].number = Number::of(b"2"),
        |_, board| board.rows.swap(0, 2),
        |_, board| board.rows[1].number_type = 2,
        |_, board| {
            let Standing::Served(call) = board.rows[0].standing else { return };
            board.rows[0].standing = Standing::Served(Call { state: CallState::Active, ..call });
        },
        |returned, _| *returned = 5,
    ];
    let old = open(Reference(9), 7, 1, 1, b"21");
    for record in [old.clone(), typed(old.clone(), 0), typed(old.clone(), 1), typed(old, 2)] {
        for wrong in wrongs {
            assert!(judged(&desk.board, &record, wrong).is_err());
        }
    }
}

#[test]
fn wrong_refusals_are_faults() {
    let mut desk = Desk::new(0, 1);
    desk.call(1, 0, 3, 0);
    for (reference, leg) in [(1, 101), (1, 9), (9, 101)] {
        for number_type in 0..=4 {
            let record = typed(open(Reference(reference), leg, 0, 0, b"5"), number_type);
            let wrong: [Wrong; 2] = [|returned, _| *returned = 0, |returned, _| *returned ^= 3];
            for wrong in wrong {
                assert!(judged(&desk.board, &record, wrong).is_err());
            }
        }
    }
}

#[test]
fn what_occurs_in_the_logs() {
    let old = |leg, digits: &[u8]| open(Reference(leg as u16), leg, 1, 0, digits);
    let occurs = |records: &[Vec<u8>], text: &str| {
        let (last, front) = records.split_last().unwrap();
        let log = [vec![1, 1], front.concat()].concat();
        assert!(!met(&log).iter().any(|met| met == text), "{text}");
        assert!(met(&[log, last.clone()].concat()).iter().any(|met| met == text), "{text}");
    };
    let places_of_1 = [&[9], &old(5, b"21")[1..], &[0]].concat();
    occurs(&[places_of_1], "5: kind 9, right at the places of kind 1");
    let places_of_9 = [&[1], &typed(old(5, b"21"), 0)[1..25]].concat();
    occurs(&[places_of_9], "5: kind 1, right at the places of kind 9");
    occurs(&[typed(old(5, b"21"), 3)], "5: kind 9, all right but type 3");
    occurs(
        &[old(5, b""), typed(old(5, b"2"), 255)],
        "5: kind 9, all right but the type, where 6 would follow",
    );
    occurs(&[typed(old(5, b"2"), 1)[..25].to_vec()], "3: kind 9, one octet short");
    occurs(&[typed(old(5, b"2"), 4)[..12].to_vec()], "3: kind 9, cut behind a type above 2");
    occurs(&[typed(old(5, b""), 2)], "Open of kind 9 and type 2, shown with 0 digits");
    occurs(
        &[typed(old(5, b""), 2), release(5), old(6, b"1")],
        "Open of kind 1, into a row that had a party of another type",
    );
    occurs(&[old(5, b"1"), typed(old(5, b"1"), 0)], "Open of kind 9 and type 0, 6");
}
