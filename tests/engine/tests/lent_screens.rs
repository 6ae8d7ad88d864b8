//! Screens that no console comes to, which may be lent all the same.

mod common;

use common::Desk;
use engine::attendant::{Console, Screen, Shown, Way, LINES};
use engine::board::Reference;
use engine::records::{answer, execute, facility, open, progress, release};

const WAYS: [Way; 3] = [Way::User, Way::Joined, Way::Alerting];

/// A screen with these on its lines.
fn lent(lines: &[(usize, u32, Way)]) -> Screen {
    let mut screen = Screen::EMPTY;
    for &(line, leg, way) in lines {
        screen.0[line - 1] = Some(Shown { leg, way });
    }
    screen
}

/// Legs 7 and 8 with the user.
fn two() -> Desk {
    let mut desk = Desk::new(1, 1);
    desk.ok(&open(Reference(1), 7, 0, 0, b""));
    desk.ok(&open(Reference(2), 8, 0, 0, b""));
    desk
}

fn played(mut screen: Screen, desk: &mut Desk, record: &[u8]) -> (u8, Screen) {
    let returned = screen.play(&mut desk.board, record, &mut [0; 128]).returned;
    (returned, screen)
}

/// A line shows a leg that the board does not have: 16, however it shows it and with no line empty too.
#[test]
fn sixteen_before_seventeen_and_eighteen() {
    let desk = two();
    for way in WAYS {
        let mut screen = lent(&[(2, 9, way)]);
        assert_eq!((screen.pin(&desk.board, 9), screen), (16, lent(&[(2, 9, way)])));
        let mut full = Screen([Some(Shown { leg: 9, way }); LINES]);
        assert_eq!([9, 7, 10].map(|leg| full.pin(&desk.board, leg)), [16, 18, 16]);
        full.0[15] = Some(Shown { leg: 7, way });
        assert_eq!([9, 7, 8].map(|leg| full.pin(&desk.board, leg)), [16, 17, 18]);
    }
}

/// 17 however the line shows the leg, which stays as it is.
#[test]
fn seventeen_in_whatever_way() {
    let desk = Desk::joined(true);
    for way in WAYS {
        let mut screen = lent(&[(16, 102, way)]);
        assert_eq!((screen.pin(&desk.board, 102), screen), (17, lent(&[(16, 102, way)])));
        assert_eq!(
            (screen.pin(&desk.board, 101), screen),
            (0, lent(&[(1, 101, Way::Joined), (16, 102, way)]))
        );
    }
}

/// A pin leaves the other lines, right or not.
#[test]
fn other_lines_stay() {
    let desk = two();
    let mut screen = lent(&[(1, 9, Way::User), (3, 9, Way::Joined), (5, 7, Way::Alerting)]);
    assert_eq!(screen.pin(&desk.board, 8), 0);
    assert_eq!(
        screen,
        lent(&[(1, 9, Way::User), (2, 8, Way::User), (3, 9, Way::Joined), (5, 7, Way::Alerting)])
    );
}

/// Any accepted event draws all lines; a refused one leaves them.
#[test]
fn lines_of_legs_that_the_board_does_not_have() {
    let screen = lent(&[(1, 9, Way::User), (4, 7, Way::Alerting), (16, 10, Way::Joined)]);
    assert_eq!(played(screen, &mut two(), &answer(7)), (11, screen));
    assert_eq!(played(screen, &mut two(), &[]), (3, screen));
    assert_eq!(played(screen, &mut two(), &release(9)), (10, screen));
    assert_eq!(played(screen, &mut two(), &progress(Reference(2), 4)), (0, lent(&[(4, 7, Way::User)])));
    // What an accepted event writes makes no difference.
    assert_eq!(played(screen, &mut two(), &facility(Reference(2), &[0xA2])), (0, lent(&[(4, 7, Way::User)])));
}

/// The board before has it not, and the one after has: the line shows it, whatever way it was shown in.
#[test]
fn a_leg_that_an_open_brings() {
    for way in WAYS {
        let screen = lent(&[(2, 9, way), (3, 10, way)]);
        assert_eq!(
            played(screen, &mut two(), &open(Reference(3), 9, 1, 0, b"")),
            (0, lent(&[(2, 9, Way::User)]))
        );
    }
}

#[test]
fn one_leg_on_two_lines() {
    let both = |way| lent(&[(3, 102, way), (12, 102, way)]);
    let mut mixed = lent(&[(3, 102, Way::User), (12, 102, Way::Alerting)]);
    let mut desk = Desk::joined(true);
    desk.call(3, 0, 3, 0);
    assert_eq!((mixed.pin(&desk.board, 102), mixed.line_of(102)), (17, Some(2)));
    let (_, screen) = played(mixed, &mut desk, &progress(Reference(3), 4));
    assert_eq!(screen, both(Way::Alerting));
    let (_, screen) = played(screen, &mut desk, &answer(102));
    assert_eq!(screen, both(Way::Joined));
    assert_eq!(played(screen, &mut desk, &release(101)), (0, Screen::EMPTY));
}

/// A full screen of one leg.
#[test]
fn one_leg_on_all_lines() {
    let mut desk = Desk::new(1, 1);
    desk.call(1, 0, 10, 2);
    desk.call(2, 0, 4, 0);
    let screen = Screen([Some(Shown { leg: 102, way: Way::Joined }); LINES]);
    let (returned, screen) = played(screen, &mut desk, &facility(Reference(1), &execute(common::ID)));
    assert_eq!((returned, screen), (0, Screen([Some(Shown { leg: 102, way: Way::Alerting }); LINES])));
}

/// Leg 0 is one: empty rows do not have it, and a line that shows it is not empty.
#[test]
fn leg_0() {
    let screen = Screen([Some(Shown { leg: 0, way: Way::User }); LINES]);
    let mut desk = two();
    let mut pinned = screen;
    assert_eq!([pinned.pin(&desk.board, 0), pinned.pin(&desk.board, 7)], [16, 18]);
    assert_eq!(played(screen, &mut desk, &release(8)), (0, Screen::EMPTY));
}
