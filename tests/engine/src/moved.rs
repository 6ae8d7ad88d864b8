//! What holds of every log that is moved: judged by playing it, beside the mover, which reads records.

use crate::board::Board;
use crate::event::{event, Answer};
use crate::moving::{bad, judge, move_log, moved_log, records, Refusal, Way, TYPED};
use crate::notice_move;
use crate::play::{next_record, start};
use crate::reply::BUFFER;
use crate::rng::Rng;
use crate::rows::count;
use crate::seen_move::MoveSeen;
use crate::tally::Tally;

const UNTOUCHED: u8 = 0x5A;

/// Moves a log either way and tallies it; says what is at fault. Where it has bad records it is moved
/// without them too.
pub fn watch(log: &[u8], rng: &mut Rng, tally: &mut Tally) -> Result<(), String> {
    let refusals = by_playing(log);
    for (way, refusal) in Way::BOTH.into_iter().zip(refusals) {
        let fault = |what| format!("moved to the {} form: {what}", way.word());
        judged(log, way, refusal, rng, tally).map_err(fault)?;
        notice_move::notice(log, way, tally);
        match (refusal, without_bad(log, way)) {
            (None, _) => whole(log, way, rng, tally).map_err(fault)?,
            (Some(_), Some(good)) => whole(&good, way, rng, tally).map_err(fault)?,
            _ => {}
        }
    }
    Ok(())
}

/// Why a log is not moved, either way, by what its records return when it is played.
fn by_playing(log: &[u8]) -> [Option<Refusal>; 2] {
    let Some((mut board, mut rest)) = start(log) else {
        return [Some(Refusal { returned: 5, record: 0 }); 2];
    };
    let (mut typed, mut number) = (None, 0);
    while let Some((record, after)) = next_record(rest) {
        number += 1;
        let returned = event(&mut board, record, &mut [0; BUFFER]).returned;
        if matches!(returned, 3..=5) {
            let refusal = Some(Refusal { returned, record: number });
            return [refusal, typed.or(refusal)];
        }
        if matches!(record, [9, _, _, _, _, _, _, _, _, 1 | 2, ..]) {
            typed = typed.or(Some(Refusal { returned: TYPED, record: number }));
        }
        rest = after;
    }
    [None, typed]
}

/// The log's good records alone, where it has options.
fn without_bad(log: &[u8], way: Way) -> Option<Vec<u8>> {
    let (_, rest) = start(log)?;
    let good = records(rest).filter(|record| bad(record, way) == 0);
    Some([&log[..2]].into_iter().chain(good).flatten().copied().collect())
}

/// What judging gives, and the answers into targets of several lengths.
fn judged(
    log: &[u8],
    way: Way,
    refusal: Option<Refusal>,
    rng: &mut Rng,
    tally: &mut Tally,
) -> Result<(), String> {
    let judged = judge(log, way);
    match (judged, refusal) {
        (Ok(length), None) => moved_into(log, way, length, rng, tally),
        (Err(refused), Some(due)) if refused == due => refused_into(log, way, due, tally),
        _ => Err(format!("{judged:?} where playing says {refusal:?}")),
    }
}

/// A refusal comes before the length of the target.
fn refused_into(log: &[u8], way: Way, refusal: Refusal, tally: &mut Tally) -> Result<(), String> {
    let refused = Answer { returned: refusal.returned, written: 0 };
    for length in [0, log.len() / 2, 2 * log.len() + 8] {
        into(log, way, length, refused)?;
    }
    let options = refusal.record == 0;
    tally.add((way, if options { MoveSeen::OptionsShort } else { MoveSeen::RefusedShort }));
    Ok(())
}

fn moved_into(log: &[u8], way: Way, length: usize, rng: &mut Rng, tally: &mut Tally) -> Result<(), String> {
    let (moved, short) = (Answer { returned: 0, written: length }, Answer { returned: 1, written: 0 });
    for less in [0, length - 1, rng.below(length)] {
        into(log, way, less, short)?;
    }
    let exact = into(log, way, length, moved)?;
    let as_log = if log.len() < length { short } else { moved };
    into(log, way, log.len(), as_log)?;
    if into(log, way, length + rng.within(1, 40), moved)?[..length] != exact {
        return Err("a larger target gets other octets".to_string());
    }
    tally.add_each([MoveSeen::Short, MoveSeen::Exact, MoveSeen::Larger].map(|seen| (way, seen)));
    tally.add_if(length != log.len(), (way, MoveSeen::AsLog));
    Ok(())
}

/// Moves into a target of so many octets; gives what it then has.
fn into(log: &[u8], way: Way, length: usize, expected: Answer) -> Result<Vec<u8>, String> {
    let mut target = vec![UNTOUCHED; length];
    let answer = move_log(log, way, &mut target);
    if answer != expected {
        return Err(format!("{answer:?} into {length} octets, where {expected:?} is due"));
    }
    if target[answer.written..].iter().any(|&octet| octet != UNTOUCHED) {
        return Err("octets were written that are not counted".to_string());
    }
    Ok(target)
}

/// A log without bad records: its moved form, played, and moved back.
fn whole(log: &[u8], way: Way, rng: &mut Rng, tally: &mut Tally) -> Result<(), String> {
    let moved = moved_log(log, way).map_err(|refusal| format!("{refusal:?} without bad records"))?;
    if records(&moved[2..]).any(|record| record[0] == way.turned()) {
        return Err("a record that has to be turned is left".to_string());
    }
    replayed(log, &moved, way, rng, tally)?;
    let one_form = records(&log[2..]).all(|record| record[0] != way.back().turned());
    if one_form {
        tally.add((way, MoveSeen::Back));
        if moved_log(&moved, way.back()).as_deref() != Ok(log) {
            return Err("it does not come back as it was".to_string());
        }
    }
    Ok(())
}

/// Both logs played side by side, with the same lengths of buffers, some of them too short.
fn replayed(log: &[u8], moved: &[u8], way: Way, rng: &mut Rng, tally: &mut Tally) -> Result<(), String> {
    let (Some((mut board, _)), Some((mut other, _))) = (start(log), start(moved)) else {
        return Err("the options are not as they were".to_string());
    };
    let (mut first, mut second) = (records(&log[2..]), records(&moved[2..]));
    loop {
        let (record, over) = match (first.next(), second.next()) {
            (Some(record), Some(over)) => (record, over),
            (None, None) => break,
            _ => return Err("there are not as many records".to_string()),
        };
        let length = if rng.percent(4) { rng.pick(&[0, 127, 200]) } else { BUFFER };
        let answer = same_step((&mut board, record), (&mut other, over), length)?;
        notice_move::replayed(way, record, answer, tally);
    }
    if count(&board.rows) != count(&other.rows) {
        return Err("the end is another".to_string());
    }
    Ok(())
}

/// One record of each log: the same number, board and reply records.
fn same_step(one: (&mut Board, &[u8]), other: (&mut Board, &[u8]), length: usize) -> Result<Answer, String> {
    let mut buffers = [[UNTOUCHED; 200]; 2];
    let [a, b] = &mut buffers;
    let answer = event(one.0, one.1, &mut a[..length]);
    let again = event(other.0, other.1, &mut b[..length]);
    if answer != again || a != b || one.0 != other.0 {
        return Err(format!("record {:02x?} and {:02x?} do not come to the same", one.1, other.1));
    }
    Ok(answer)
}
