//! Soundness: the index against the plain rule, and counts and lookup over lent rows.

mod common;

use common::{Desk, ID};
use engine::board::{Aux, Board, CallState, Counts, LinkId, Number, Reference, Row, Standing};
use engine::index::Index;
use engine::logs::steered;
use engine::play::{next_record, start};
use engine::records;
use engine::rng::Rng;
use engine::rows::{board_sound, count, lookup};

/// Both ways to judge a board have to agree.
fn sound(board: &Board) -> bool {
    let plain = board_sound(board);
    assert_eq!(Index::empty().fill(board), plain);
    plain
}

/// Two served calls with LinkIds, and a pair of which one alerts.
fn busy() -> Desk {
    let mut desk = Desk::new(1, 1);
    desk.call(1, 0, 10, 2);
    desk.call(2, 0, 4, 0);
    desk.ask(1, &records::execute(ID));
    desk.call(3, 1, 7, 0);
    desk.call(4, 0, 10, 1);
    desk.link(3);
    desk.link(4);
    assert!(sound(&desk.board));
    desk
}

#[test]
fn each_rule_of_soundness() {
    let changes: [fn(&mut Board); 23] = [
        |board| board.subscribed = 3,
        |board| board.alerting = 4,
        |board| board.rows[63].leg = 1,
        |board| board.rows[63].presentation = 1,
        |board| board.rows[63].number.0[15] = 1,
        |board| board.rows[0].presentation = 2,
        |board| board.rows[63].number_type = 1,
        |board| board.rows[0].number_type = 3,
        |board| board.rows[2].number_type = 255,
        |board| board.rows[0].number.0[0] = 16,
        |board| board.rows[2].number.0[0] = 2,
        |board| board.rows[2].number.0[1] = b':',
        |board| board.rows[2].leg = 104,
        |board| change_call(board, 2, |call| call.reference = Reference(4)),
        |board| change_call(board, 2, |call| call.reference = Reference(0x8000)),
        |board| change_call(board, 2, |call| call.direction = 0),
        |board| change_call(board, 2, |call| call.state = CallState::Delivered),
        |board| change_call(board, 3, |call| call.direction = 2),
        |board| change_call(board, 2, |call| call.aux = Aux::Held),
        |board| change_call(board, 2, |call| call.link = Some(LinkId(1))),
        |board| board.rows[0].standing = Standing::Joined { partner: 102, alerts: true },
        |board| board.rows[0].standing = Standing::Joined { partner: 101, alerts: false },
        |board| board.rows[0] = Row::EMPTY,
    ];
    for (number, change) in changes.iter().enumerate() {
        let mut board = busy().board;
        change(&mut board);
        assert!(!sound(&board), "change {number}");
    }
}

#[test]
fn options_of_a_sound_board() {
    let mut board = busy().board;
    for option in 0..=255 {
        for subscribed in 0..=2 {
            (board.subscribed, board.alerting) = (subscribed, option);
            assert_eq!(sound(&board), option <= 3, "subscribed {subscribed}, alerting {option}");
        }
        for alerting in 0..=3 {
            (board.subscribed, board.alerting) = (option, alerting);
            assert_eq!(sound(&board), option <= 2, "subscribed {option}, alerting {alerting}");
        }
    }
}

/// With any digits, and with none, whatever the standing.
#[test]
fn types_of_a_sound_board() {
    let mut desk = busy();
    desk.ok(&records::open(Reference(9), 900, 0, 1, b""));
    for place in 0..6 {
        let mut board = desk.board.clone();
        for number_type in 0..=255 {
            board.rows[place].number_type = number_type;
            let highest = if board.rows[place].standing == Standing::Empty { 0 } else { 2 };
            assert_eq!(sound(&board), number_type <= highest, "row {place}, type {number_type}");
            assert_eq!(count(&board.rows).0 == 0, number_type <= highest);
        }
    }
}

fn change_call(board: &mut Board, place: usize, change: fn(&mut engine::board::Call)) {
    if let Standing::Served(call) = &mut board.rows[place].standing {
        change(call);
    }
}

#[test]
fn joined_to_a_served_call_or_to_nobody() {
    for partner in [103, 999] {
        let mut board = busy().board;
        board.rows[0].standing = Standing::Joined { partner, alerts: false };
        assert!(!sound(&board));
    }
}

#[test]
fn at_most_sixteen_links() {
    let mut desk = Desk::new(1, 1);
    for reference in 1..=17 {
        desk.call(reference, 0, 3, 0);
    }
    for place in 0..16 {
        let value = LinkId(place as i16 * 64);
        if let Standing::Served(call) = &mut desk.board.rows[place].standing {
            call.link = Some(value);
        }
        assert!(sound(&desk.board));
    }
    change_call(&mut desk.board, 16, |call| call.link = Some(LinkId(-5)));
    assert!(!sound(&desk.board));
}

#[test]
fn digits_octet_by_octet() {
    for count in 0..=17u8 {
        for place in 0..15 {
            for octet in 0..=255 {
                let mut number = Number([0; 16]);
                number.0[0] = count;
                let used = (count as usize).min(15);
                number.0[1..1 + used].fill(b'5');
                number.0[1 + place] = octet;
                let good = if place < used { octet.is_ascii_digit() } else { octet == 0 };
                assert_eq!(number.sound(), good && count <= 15);
            }
        }
    }
}

/// Boards as logs leave them, one octet-sized change each, judged both ways.
#[test]
fn index_agrees_with_the_plain_rule() {
    let mut rng = Rng::new(11);
    let mut unsound = 0;
    for _ in 0..400 {
        let log = steered(&mut rng);
        let Some((mut board, mut rest)) = start(&log) else { continue };
        while let Some((record, after)) = next_record(rest) {
            engine::event::event(&mut board, record, &mut [0; 128]);
            rest = after;
        }
        assert!(sound(&board));
        for _ in 0..20 {
            let mut changed = board.clone();
            disturb(&mut rng, &mut changed);
            unsound += !sound(&changed) as usize;
        }
    }
    assert!(unsound > 1000);
}

fn disturb(rng: &mut Rng, board: &mut Board) {
    let (place, other) = (rng.below(64), rng.below(64));
    match rng.below(8) {
        0 => board.rows[place].leg = board.rows[other].leg,
        1 => board.rows[place].standing = board.rows[other].standing,
        2 => board.rows[place] = Row::EMPTY,
        3 => board.rows[place].number.0[rng.below(16)] ^= 1 << rng.below(8),
        4 => board.rows.swap(place, other),
        5 => board.rows[place].presentation ^= 1 << rng.below(3),
        6 => board.rows[place].number_type ^= 1 << rng.below(3),
        _ => {
            let partner = board.rows[other].leg;
            board.rows[place].standing = Standing::Joined { partner, alerts: rng.percent(50) };
        }
    }
}

#[test]
fn counts_over_lent_rows() {
    let board = busy().board;
    assert_eq!(count(&board.rows), (0, Counts { legs: 4, pairs: 1, links: 2 }));
    assert_eq!(count(&board.rows[..4]), (0, Counts { legs: 4, pairs: 1, links: 2 }));
    assert_eq!(count(&board.rows[1..]), (2, Counts::default()));
    assert_eq!(count(&[]), (0, Counts::default()));
    let mut many = board.rows.to_vec();
    many.extend([Row::EMPTY; 100]);
    assert_eq!(count(&many).1.legs, 4);
    many.push(board.rows[3]);
    assert_eq!(count(&many), (2, Counts::default()));
}

#[test]
fn lookup_over_lent_rows() {
    let board = busy().board;
    assert_eq!(lookup(&board.rows, Reference(4)), (0, 3));
    assert_eq!(lookup(&board.rows, Reference(1)), (9, 0));
    assert_eq!(lookup(&[], Reference(4)), (9, 0));
    // Nothing more is tested: the first of two counts, and a reference may be 0.
    let mut twice = board.rows.to_vec();
    twice.push(board.rows[3]);
    assert_eq!(lookup(&twice, Reference(4)), (0, 3));
    assert_eq!(lookup(&twice[4..], Reference(4)), (0, 60));
    assert_eq!(lookup(&twice, Reference(0)), (9, 0));
}
