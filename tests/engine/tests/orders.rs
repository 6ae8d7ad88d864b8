//! Players whose Progress or Hold is wrong in one point: made pairs of logs, in either order of two such events,
//! tell each of them from the right one.

#[path = "common/wrong_player.rs"]
mod wrong_player;

use engine::board::{Aux, Board, Call, CallState, LinkId, Reference, ROWS};
use engine::either_order::{Orders, Right, Step};
use engine::event::{event, Answer, HOLD, PROGRESS};
use engine::exchange::Exchange;
use engine::order_texts::Otherwise;
use engine::records::{hold, open, progress};
use wrong_player::{besides, calls, exchanges, found_by, named, place, refused, told_apart, By};

#[test]
fn other_calls_changed() {
    fn other<'a>(board: &'a mut Board, record: &[u8]) -> Option<&'a mut Call> {
        let reference = named(record);
        calls(board).find(|call| call.reference.0 != reference)
    }
    told_apart([
        ("a Progress makes another call Active", By::Order, |_, board, record, buffer| {
            besides(board, record, buffer, |board| {
                let other = other(board, record).filter(|_| record[0] == PROGRESS);
                other.into_iter().for_each(|call| call.state = CallState::Active);
            })
        }),
        ("a Hold makes another call Idle", By::Order, |_, board, record, buffer| {
            besides(board, record, buffer, |board| {
                let other = other(board, record).filter(|_| record[0] == HOLD);
                other.into_iter().for_each(|call| call.aux = Aux::Idle);
            })
        }),
        ("one call alone is held", By::Order, |_, board, record, buffer| {
            let held = calls(board).any(|call| call.aux == Aux::Held);
            if held && (record[0], record[3]) == (HOLD, 2) {
                return refused(11);
            }
            event(board, record, buffer)
        }),
        ("a Hold writes where another call is held", By::Order, |_, board, record, buffer| {
            let held = calls(board).any(|call| call.aux == Aux::Held);
            let answer = event(board, record, buffer);
            buffer[0] = 0x84;
            let written = (answer.returned == 0 && held && record[0] == HOLD) as usize;
            Answer { written, ..answer }
        }),
        ("a Progress gives a LinkId", By::Order, |_, board, record, buffer| {
            besides(board, record, buffer, |board| {
                let (reference, candidate) = (named(record), board.candidate);
                let fresh = calls(board).all(|call| call.link != Some(candidate));
                let own = calls(board).find(|call| call.reference.0 == reference && call.link.is_none());
                if let Some(call) = own.filter(|_| fresh && record[0] == PROGRESS) {
                    call.link = Some(candidate);
                    board.candidate = candidate.next();
                }
            })
        }),
    ]);
}

#[test]
fn the_candidate_and_the_options() {
    told_apart([
        ("the candidate becomes the reference, accepted", By::Order, |_, board, record, buffer| {
            besides(board, record, buffer, |board| board.candidate = LinkId(named(record) as i16))
        }),
        ("the candidate becomes the reference, refused", By::Order, |_, board, record, buffer| {
            let answer = event(board, record, buffer);
            if answer.returned != 0 {
                board.candidate = LinkId(named(record) as i16);
            }
            answer
        }),
        ("a Progress moves the candidate by one", By::Rows, |_, board, record, buffer| {
            besides(board, record, buffer, |board| {
                board.candidate =
                    if record[0] == PROGRESS { board.candidate.next() } else { board.candidate };
            })
        }),
        ("a Hold moves the candidate by one", By::Rows, |_, board, record, buffer| {
            besides(board, record, buffer, |board| {
                board.candidate = if record[0] == HOLD { board.candidate.next() } else { board.candidate };
            })
        }),
        ("a Hold lets alerting parties be transferred", By::Rows, |_, board, record, buffer| {
            besides(board, record, buffer, |board| board.alerting |= (record[0] == HOLD) as u8)
        }),
    ]);
}

#[test]
fn kept_between_events() {
    told_apart([
        ("a Hold behind a Progress is refused", By::Order, |wrong, board, record, buffer| {
            match (record[0], wrong.last.first()) {
                (HOLD, Some(&PROGRESS)) => refused(11),
                _ => event(board, record, buffer),
            }
        }),
        ("a Hold behind an accepted event of another call", By::Order, |wrong, board, record, buffer| {
            let other = wrong.returned == 0 && wrong.last.get(1..3) != Some(&record[1..3]);
            match record[0] {
                HOLD if other && wrong.last.len() == 4 => refused(11),
                _ => event(board, record, buffer),
            }
        }),
        ("a Progress behind a refused event is refused so", By::Order, |wrong, board, record, buffer| {
            match record[0] {
                PROGRESS if wrong.returned != 0 && wrong.last.len() == 4 => refused(wrong.returned),
                _ => event(board, record, buffer),
            }
        }),
        ("the call of the event before", By::Order, |wrong, board, record, buffer| match wrong.last[..] {
            [PROGRESS | HOLD, high, low, _] => event(board, &[record[0], high, low, record[3]], buffer),
            _ => event(board, record, buffer),
        }),
    ]);
}

#[test]
fn calls_found_in_a_wrong_way() {
    told_apart([
        ("a Progress by the low 15 bits", By::Order, |_, board, record, buffer| {
            found_by(board, record, buffer, if record[0] == PROGRESS { 0x7FFF } else { 0xFFFF })
        }),
        ("a Hold by the low 15 bits", By::Order, |_, board, record, buffer| {
            found_by(board, record, buffer, if record[0] == HOLD { 0x7FFF } else { 0xFFFF })
        }),
        ("by the high octet", By::Order, |_, board, record, buffer| found_by(board, record, buffer, 0xFF00)),
        ("by the low octet", By::Order, |_, board, record, buffer| found_by(board, record, buffer, 0x00FF)),
        ("the lowest call where none has the reference", By::Order, |_, board, record, buffer| {
            let right = event(board, record, buffer);
            if right.returned == 9 {
                return found_by(board, record, buffer, 0);
            }
            right
        }),
    ]);
}

#[test]
fn rows_reordered() {
    told_apart([
        ("an accepted event brings its row to the front", By::Order, |_, board, record, buffer| {
            let place = place(board, record);
            besides(board, record, buffer, |board| board.rows[..=place].rotate_right(1))
        }),
        ("an accepted event brings its row to the end", By::Order, |_, board, record, buffer| {
            let place = place(board, record);
            besides(board, record, buffer, |board| board.rows[place..].rotate_left(1))
        }),
        ("an accepted event exchanges its row and the first", By::Order, |_, board, record, buffer| {
            let place = place(board, record);
            besides(board, record, buffer, |board| board.rows.swap(0, place))
        }),
        ("an accepted event turns all rows round", By::Rows, |_, board, record, buffer| {
            besides(board, record, buffer, |board| board.rows[..ROWS].reverse())
        }),
    ]);
}

#[test]
fn the_right_one() {
    for exchange in exchanges() {
        let orders = Orders::of(&exchange, Right);
        assert_eq!((orders.same(&exchange), orders.by_rows(&exchange)), (Ok(()), Ok(())));
    }
}

/// A call of state 3, Idle: 0 and 0 in this order, 11 and 0 in the other.
#[test]
fn two_events_on_one_reference() {
    let one = Reference(1);
    let front = [&[1, 1], &open(one, 7, 0, 0, b"21")[..]].concat();
    let log = [front, progress(one, 4), hold(one, 1)].concat();
    let exchange = Exchange { log, places: vec![1] };
    let orders = Orders::of(&exchange, Right);
    let returned = |steps: &[Step]| [steps[1].returned, steps[2].returned];
    assert_eq!(returned(&orders.first.steps), [0, 0]);
    assert_eq!(returned(&orders.second.steps), [11, 0]);
    assert_eq!(orders.same(&exchange), Err(Otherwise::Answer(3)));
    assert_eq!(orders.first.text, b"ect 1\n1 1 0 -\n2 2 0 -\n3 3 0 -\nend 1 0 0\n");
    assert_eq!(orders.second.text, b"ect 1\n1 1 0 -\n2 3 11 -\n3 2 0 -\nend 1 0 0\n");
}
