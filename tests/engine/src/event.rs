//! Event records and what each of them does.

use crate::board::{Aux, Board, Call, CallState, Number, Reference, Row, Standing};
use crate::board::{INCOMING, NATIONAL, UNKNOWN};
use crate::carried::{inform, pass_on};
use crate::index::Index;
use crate::lookup::{Lookup, Walk};
use crate::reply::{Message, Replies, Told, ACTIVE, BUFFER};
use crate::rules::RuleSet;
use crate::serve::serve;

pub const OPEN: u8 = 1;
pub const PROGRESS: u8 = 2;
pub const HOLD: u8 = 3;
pub const RELEASE: u8 = 4;
pub const FACILITY: u8 = 5;
pub const ANSWER: u8 = 6;
pub const LEG_FACILITY: u8 = 7;
pub const INFORM: u8 = 8;
pub const OPEN_TYPED: u8 = 9;

/// What an event returns: 0 and the octets written, or a refusal and 0.
#[derive(Clone, Copy, PartialEq, Eq, Debug)]
pub struct Answer {
    pub returned: u8,
    pub written: usize,
}

#[derive(Clone, Copy, PartialEq, Eq, Debug)]
pub enum Event<'a> {
    /// Of either kind, which come to the same.
    Open {
        reference: Reference,
        leg: u32,
        direction: u8,
        presentation: u8,
        number_type: u8,
        number: Number,
    },
    Progress {
        reference: Reference,
        state: CallState,
    },
    Hold {
        reference: Reference,
        aux: Aux,
    },
    Release {
        leg: u32,
    },
    Facility {
        reference: Reference,
        component: &'a [u8],
    },
    Answer {
        leg: u32,
    },
    LegFacility {
        leg: u32,
        component: &'a [u8],
    },
    Inform {
        reference: Reference,
        component: &'a [u8],
    },
}

/// The octets that follow a listed kind.
pub fn body_length(kind: u8) -> Option<usize> {
    match kind {
        OPEN => Some(24),
        PROGRESS | HOLD => Some(3),
        RELEASE | ANSWER => Some(4),
        FACILITY => Some(35),
        LEG_FACILITY => Some(69),
        INFORM => Some(67),
        OPEN_TYPED => Some(25),
        _ => None,
    }
}

impl Event<'_> {
    /// Reads a record; refuses with 3, 4 or 5.
    pub fn read(record: &[u8]) -> Result<Event<'_>, u8> {
        let (&kind, body) = record.split_first().ok_or(3)?;
        let length = body_length(kind).ok_or(4)?;
        if body.len() != length {
            return Err(3);
        }
        let event = match (kind, body) {
            (OPEN | OPEN_TYPED, body) => read_open(body),
            (PROGRESS, &[high, low, state]) => read_progress(high, low, state),
            (HOLD, &[high, low, aux]) => read_hold(high, low, aux),
            (FACILITY, body) => {
                on_a_call(body).map(|(reference, component)| Event::Facility { reference, component })
            }
            (RELEASE, &[a, b, c, d]) => Some(Event::Release { leg: u32::from_be_bytes([a, b, c, d]) }),
            (ANSWER, &[a, b, c, d]) => Some(Event::Answer { leg: u32::from_be_bytes([a, b, c, d]) }),
            (LEG_FACILITY, &[a, b, c, d, count, ref octets @ ..]) => {
                let leg = u32::from_be_bytes([a, b, c, d]);
                component(count, octets).map(|component| Event::LegFacility { leg, component })
            }
            (INFORM, body) => {
                on_a_call(body).map(|(reference, component)| Event::Inform { reference, component })
            }
            _ => None,
        };
        event.ok_or(5)
    }
}

fn reference(high: u8, low: u8) -> Option<Reference> {
    Some(Reference(u16::from_be_bytes([high, low]))).filter(|reference| reference.valid())
}

/// Of either kind: where no octet says the type of number, it is unknown.
fn read_open(body: &[u8]) -> Option<Event<'_>> {
    let &[high, low, a, b, c, d, direction, presentation, ref rest @ ..] = body else { return None };
    let (number_type, &number) = rest.split_last_chunk()?;
    let number_type = number_type.first().copied().unwrap_or(UNKNOWN);
    let (reference, leg, number) = (reference(high, low)?, u32::from_be_bytes([a, b, c, d]), Number(number));
    if direction > 1 || presentation > 1 || number_type > NATIONAL || !number.sound() {
        return None;
    }
    Some(Event::Open { reference, leg, direction, presentation, number_type, number })
}

fn read_progress<'a>(high: u8, low: u8, state: u8) -> Option<Event<'a>> {
    let state = match state {
        4 => CallState::Delivered,
        10 => CallState::Active,
        _ => return None,
    };
    Some(Event::Progress { reference: reference(high, low)?, state })
}

fn read_hold<'a>(high: u8, low: u8, aux: u8) -> Option<Event<'a>> {
    Some(Event::Hold { reference: reference(high, low)?, aux: Aux::from_octet(aux)? })
}

/// The reference and the component of a record that has both.
fn on_a_call(body: &[u8]) -> Option<(Reference, &[u8])> {
    let &[high, low, count, ref octets @ ..] = body else { return None };
    Some((reference(high, low)?, component(count, octets)?))
}

/// The octets that are counted, at least one; those behind them are zeros.
fn component(count: u8, octets: &[u8]) -> Option<&[u8]> {
    let (component, fill) = octets.split_at_checked(count as usize)?;
    let good = count > 0 && fill.iter().all(|&octet| octet == 0);
    good.then_some(component)
}

/// Plays one event into a board. A refusal changes neither board nor buffer.
pub fn event(board: &mut Board, record: &[u8], buffer: &mut [u8]) -> Answer {
    answered(tested_event(board, record, buffer))
}

/// The same on a board that is known to be sound, which is not tested.
pub fn event_on_sound(board: &mut Board, record: &[u8], buffer: &mut [u8]) -> Answer {
    answered(room(buffer).and_then(|buffer| sound_event(board, &Walk, record, buffer)))
}

#[inline]
fn answered(done: Result<usize, u8>) -> Answer {
    match done {
        Ok(written) => Answer { returned: 0, written },
        Err(returned) => Answer { returned, written: 0 },
    }
}

#[inline]
fn room(buffer: &mut [u8]) -> Result<&mut [u8; BUFFER], u8> {
    buffer.first_chunk_mut::<BUFFER>().ok_or(1)
}

#[inline]
fn tested_event(board: &mut Board, record: &[u8], buffer: &mut [u8]) -> Result<usize, u8> {
    let buffer = room(buffer)?;
    let mut index = Index::empty();
    if !index.fill(board) {
        return Err(2);
    }
    sound_event(board, &index, record, buffer)
}

#[inline]
fn sound_event(
    board: &mut Board,
    index: &impl Lookup,
    record: &[u8],
    buffer: &mut [u8; BUFFER],
) -> Result<usize, u8> {
    let mut replies = Replies::new(buffer);
    match Event::read(record)? {
        Event::Open { reference, leg, direction, presentation, number_type, number } => {
            let standing = opened(reference, direction);
            open(board, index, reference, Row { leg, standing, presentation, number_type, number })?;
        }
        Event::Progress { reference, state } => progress(board, index, reference, state)?,
        Event::Hold { reference, aux } => hold(board, index, reference, aux)?,
        Event::Release { leg } => release(board, index, leg, &mut replies)?,
        Event::Facility { reference, component } => {
            let (place, call) = named(board, index, reference)?;
            serve(board, place, call, index, component, &mut replies);
        }
        Event::Answer { leg } => answer(board, index, leg, &mut replies)?,
        Event::LegFacility { leg, component } => pass_on(board, index, leg, component, &mut replies)?,
        Event::Inform { reference, component } => inform(board, index, reference, component, &mut replies)?,
    }
    Ok(replies.written())
}

fn opened(reference: Reference, direction: u8) -> Standing {
    let state = if direction == INCOMING { CallState::Received } else { CallState::Proceeding };
    Standing::Served(Call { reference, direction, state, aux: Aux::Idle, link: None })
}

fn open(board: &mut Board, index: &impl Lookup, reference: Reference, row: Row) -> Result<(), u8> {
    if index.leg(&board.rows, row.leg).is_some() {
        return Err(6);
    }
    if index.reference(&board.rows, reference).is_some() {
        return Err(7);
    }
    let place = index.lowest_empty(&board.rows).ok_or(8)?;
    board.rows[place] = row;
    Ok(())
}

/// The call that an event names, with its place.
pub fn named(board: &Board, index: &impl Lookup, reference: Reference) -> Result<(usize, Call), u8> {
    let place = index.reference(&board.rows, reference).ok_or(9)?;
    let call = board.rows[place].call().ok_or(9)?;
    Ok((place, *call))
}

fn progress(
    board: &mut Board,
    index: &impl Lookup,
    reference: Reference,
    state: CallState,
) -> Result<(), u8> {
    use CallState::{Active, Delivered, Proceeding, Received};
    let (place, call) = named(board, index, reference)?;
    match (call.state, state) {
        (Proceeding, Delivered) | (Proceeding | Delivered | Received, Active) => {
            board.rows[place].standing = Standing::Served(Call { state, ..call });
            Ok(())
        }
        _ => Err(11),
    }
}

fn hold(board: &mut Board, index: &impl Lookup, reference: Reference, aux: Aux) -> Result<(), u8> {
    use Aux::{Held, HoldRequest, Idle, RetrieveRequest};
    let (place, call) = named(board, index, reference)?;
    match (call.aux, aux) {
        (Idle, HoldRequest)
        | (HoldRequest, Held | Idle)
        | (Held, RetrieveRequest)
        | (RetrieveRequest, Idle | Held)
            if call.may_hold() =>
        {
            board.rows[place].standing = Standing::Served(Call { aux, ..call });
            Ok(())
        }
        _ => Err(11),
    }
}

fn release(board: &mut Board, index: &impl Lookup, leg: u32, replies: &mut Replies) -> Result<(), u8> {
    let place = index.leg(&board.rows, leg).ok_or(10)?;
    match board.rows[place].standing {
        Standing::Empty => return Err(10),
        Standing::Served(call) => replies.drop_call(call.reference),
        Standing::Joined { partner, .. } => {
            if let Some(other) = index.leg(&board.rows, partner) {
                board.rows[other] = Row::EMPTY;
            }
            replies.gone(partner);
        }
    }
    board.rows[place] = Row::EMPTY;
    Ok(())
}

fn answer(board: &mut Board, index: &impl Lookup, leg: u32, replies: &mut Replies) -> Result<(), u8> {
    let rules = board.rules();
    let place = index.leg(&board.rows, leg).ok_or(10)?;
    let row = &mut board.rows[place];
    let Standing::Joined { partner, alerts: true } = row.standing else { return Err(11) };
    row.standing = Standing::Joined { partner, alerts: false };
    replies.tell(partner, Message::Facility, ACTIVE, 0, Told::of(row));
    if rules == RuleSet::American {
        let other = index.leg(&board.rows, partner).ok_or(10)?;
        replies.tell(leg, Message::Facility, ACTIVE, 0, Told::of(&board.rows[other]));
    }
    Ok(())
}
