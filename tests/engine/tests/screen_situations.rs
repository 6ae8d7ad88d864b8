//! The situations of the attendant's screen, each by its own test.

mod common;

use common::{Desk, DONE, ID, OPTIONS};
use engine::attendant::{Console, Screen, Shown, Way};
use engine::board::Reference;
use engine::records::{answer, execute, explicit_link, facility, inform, open, progress, release};

/// A board and the screen beside it.
struct Attendant {
    desk: Desk,
    screen: Screen,
}

impl Attendant {
    fn new(subscribed: u8, alerting: u8) -> Attendant {
        Attendant { desk: Desk::new(subscribed, alerting), screen: Screen::EMPTY }
    }

    fn pin(&mut self, leg: u32) -> u8 {
        self.screen.pin(&self.desk.board, leg)
    }

    fn play(&mut self, record: &[u8]) -> u8 {
        self.screen.play(&mut self.desk.board, record, &mut [0; 128]).returned
    }

    fn shows(&self, text: &str) {
        assert_eq!(self.screen.to_string(), text);
    }

    fn open(&mut self, reference: u16, leg: u32) {
        assert_eq!(self.play(&open(Reference(reference), leg, 0, 0, b"21")), 0);
    }

    /// Legs from 1 on, one for each of so many references.
    fn legs(count: u16) -> Attendant {
        let mut console = Attendant::new(1, 1);
        (1..=count).for_each(|number| console.open(number, number.into()));
        console
    }

    /// Legs 101 and 102 with calls that pair, the second Delivered or Active.
    fn pair(subscribed: u8, alerting: u8, state: u8) -> Attendant {
        let mut console = Attendant::new(subscribed, alerting);
        console.desk.call(1, 0, 10, 2);
        console.desk.call(2, 0, state, 0);
        console
    }

    fn transfer(&mut self) {
        let link = self.desk.link(2).unwrap();
        assert_eq!(self.play(&facility(Reference(1), &explicit_link(ID, link))), 0);
    }
}

#[test]
fn checks_of_a_pin() {
    let mut console = Attendant::legs(18);
    assert_eq!(console.pin(19), 16);
    assert_eq!(console.pin(0), 16);
    for leg in 1..=16 {
        assert_eq!(console.pin(leg), 0);
    }
    let full = console.screen;
    // 16 and 17 come before 18.
    assert_eq!([19, 1, 16, 17, 18, 17].map(|leg| console.pin(leg)), [16, 17, 17, 18, 18, 18]);
    assert_eq!(console.screen, full);
    assert!(full.to_string().starts_with("1:1:user 2:2:user ") && full.to_string().ends_with(" 16:16:user"));
}

#[test]
fn a_board_that_is_not_sound_comes_first() {
    let mut console = Attendant::legs(17);
    (1..=16).for_each(|leg| assert_eq!(console.pin(leg), 0));
    let full = console.screen;
    for spoil in [
        |desk: &mut Desk| desk.board.subscribed = 3,
        |desk: &mut Desk| desk.board.alerting = 4,
        |desk: &mut Desk| desk.board.rows[20].leg = 1,
        |desk: &mut Desk| desk.board.rows[1].leg = 1,
    ] {
        let mut wrong = Desk { board: console.desk.board.clone() };
        spoil(&mut wrong);
        let mut screen = full;
        assert_eq!([1, 17, 99].map(|leg| screen.pin(&wrong.board, leg)), [2; 3]);
        assert_eq!(screen, full);
        let mut empty = Screen::EMPTY;
        assert_eq!((empty.pin(&wrong.board, 1), empty), (2, Screen::EMPTY));
        // An event gets 2 there too, and leaves the screen.
        assert_eq!(screen.play(&mut wrong.board, &release(1), &mut [0; 128]).returned, 2);
        assert_eq!(screen, full);
    }
}

#[test]
fn the_lowest_empty_line() {
    let mut console = Attendant::legs(17);
    (1..=16).for_each(|leg| assert_eq!(console.pin(leg), 0));
    assert_eq!([console.play(&release(9)), console.play(&release(3))], [0, 0]);
    assert_eq!(console.pin(17), 0);
    assert_eq!(console.screen.line_of(17), Some(2));
    console.open(9, 9);
    console.open(3, 3);
    assert_eq!([console.pin(3), console.pin(9)], [0, 18]);
    assert_eq!(console.screen.line_of(3), Some(8));
}

#[test]
fn transferred_and_answered() {
    for (subscribed, alerting) in
        OPTIONS.into_iter().filter(|(subscribed, alerting)| *subscribed != 0 && alerting % 2 == 1)
    {
        let mut console = Attendant::pair(subscribed, alerting, 4);
        assert_eq!([console.pin(102), console.pin(101)], [0, 0]);
        console.shows("1:102:user 2:101:user");
        console.transfer();
        console.shows("1:102:alerting 2:101:joined");
        assert_eq!([console.play(&answer(101)), console.play(&answer(102))], [11, 0]);
        console.shows("1:102:joined 2:101:joined");
        assert_eq!(console.play(&answer(102)), 11);
        console.shows("1:102:joined 2:101:joined");
        assert_eq!(console.play(&release(101)), 0);
        console.shows("-");
    }
}

/// Of the two legs both, either or none is pinned, before the transfer or after it.
#[test]
fn which_of_two_are_pinned() {
    for state in [4, 10] {
        let second = if state == 4 { "alerting" } else { "joined" };
        for (pinned, joined) in [
            (vec![101, 102], format!("1:101:joined 2:102:{second}")),
            (vec![101], "1:101:joined".to_string()),
            (vec![102], format!("1:102:{second}")),
            (vec![], "-".to_string()),
        ] {
            for before in [true, false] {
                for gone in [101, 102] {
                    let mut console = Attendant::pair(1, 1, state);
                    if before {
                        pinned.iter().for_each(|leg| assert_eq!(console.pin(*leg), 0));
                    }
                    console.transfer();
                    if !before {
                        pinned.iter().for_each(|leg| assert_eq!(console.pin(*leg), 0));
                    }
                    console.shows(&joined);
                    assert_eq!(console.play(&release(gone)), 0);
                    console.shows("-");
                }
            }
        }
    }
}

#[test]
fn a_leg_that_comes_back() {
    let mut console = Attendant::legs(3);
    assert_eq!([console.pin(1), console.pin(2), console.pin(3)], [0; 3]);
    assert_eq!(console.play(&release(2)), 0);
    console.shows("1:1:user 3:3:user");
    // It has gone, though a line had it: 16.
    assert_eq!(console.pin(2), 16);
    console.open(2, 2);
    console.shows("1:1:user 3:3:user");
    assert_eq!(console.play(&progress(Reference(2), 4)), 0);
    console.shows("1:1:user 3:3:user");
    assert_eq!(console.play(&release(1)), 0);
    assert_eq!(console.pin(2), 0);
    console.shows("1:2:user 3:3:user");
}

#[test]
fn refused_events_leave_the_screen() {
    let mut console = Attendant::legs(2);
    assert_eq!([console.pin(1), console.pin(2)], [0; 2]);
    let (screen, board) = (console.screen, console.desk.board.clone());
    let bad = open(Reference(3), 3, 2, 0, b"");
    let refused: [(u8, &[u8]); 9] = [
        (3, &[]),
        (3, &release(1)[..4]),
        (4, &[0, 0, 0, 0, 1]),
        (4, &[255, 0, 0]),
        (5, &bad),
        (6, &open(Reference(3), 1, 0, 0, b"")),
        (7, &open(Reference(2), 3, 0, 0, b"")),
        (9, &progress(Reference(3), 10)),
        (11, &answer(1)),
    ];
    for (returned, record) in refused {
        assert_eq!(console.play(record), returned);
    }
    assert_eq!(console.play(&release(3)), 10);
    assert_eq!(console.play(&inform(Reference(1), &[0xA1, 0])), 11);
    assert_eq!(console.screen.play(&mut console.desk.board, &release(1), &mut [0; 127]).returned, 1);
    assert_eq!((console.screen, console.desk.board), (screen, board));
}

/// Whatever state a call is in, it is with the user.
#[test]
fn calls_in_every_state() {
    for (direction, state, aux) in [(0, 3, 0), (1, 7, 0), (0, 4, 0), (0, 4, 1), (0, 10, 2), (1, 10, 3)] {
        let mut console = Attendant::new(1, 1);
        console.desk.call(1, direction, state, aux);
        assert_eq!(console.pin(101), 0);
        console.shows("1:101:user");
    }
}

#[test]
fn legs_of_any_number() {
    let mut console = Attendant::new(1, 1);
    for (reference, leg) in [(1, u32::MAX), (2, 0), (3, 1 << 31)] {
        console.open(reference, leg);
        assert_eq!(console.pin(leg), 0);
    }
    console.shows("1:4294967295:user 2:0:user 3:2147483648:user");
    assert_eq!(console.play(&release(0)), 0);
    console.shows("1:4294967295:user 3:2147483648:user");
    assert_eq!(console.pin(0), 16);
}

#[test]
fn a_transfer_by_ect_execute() {
    let mut console = Attendant::pair(1, 1, 10);
    assert_eq!([console.pin(101), console.pin(102)], [0; 2]);
    assert_eq!(console.desk.ask(1, &execute(ID)), DONE);
    // The screen is drawn by the events that it plays.
    console.shows("1:101:user 2:102:user");
    assert_eq!(console.pin(101), 17);
    console.open(3, 3);
    console.shows("1:101:joined 2:102:joined");
    assert_eq!(Shown::on(&console.desk.board, 101), Some(Shown { leg: 101, way: Way::Joined }));
    assert_eq!(Shown::on(&console.desk.board, 0), None);
}
