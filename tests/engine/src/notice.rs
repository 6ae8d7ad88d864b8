//! Watches a log as the engine plays it and tallies what occurs.

use std::collections::{HashMap, HashSet};

use crate::alike;
use crate::american;
use crate::board::{Aux, Board, Call, CallState, LinkId, Reference, Row, Standing, INCOMING};
use crate::carrier::Carrier;
use crate::console;
use crate::event::{event, Answer, Event, OPEN_TYPED, RELEASE};
use crate::notice_answer;
use crate::notice_carrier;
use crate::notice_component;
use crate::notice_explicit;
use crate::notice_history;
use crate::notice_inform;
use crate::notice_invoke::rewritten;
use crate::notice_leg;
use crate::notice_open;
use crate::notice_options;
use crate::notice_pair::looked_up;
use crate::notice_refused::{bad_field, no_call, not_permitted, open_refused};
use crate::opened;
use crate::places;
use crate::play::{next_record, start};
use crate::reply::BUFFER;
use crate::rows::board_sound;
use crate::seen_carrier::CarrierSeen;
use crate::seen_rules::RuleSeen;
use crate::seen_type::TypeSeen;
use crate::tally::{Seen, Tally};

/// A Reply, two Drops and two Tells that say a type.
const MOST_WRITTEN: usize = 94;

/// What happened earlier in the log.
#[derive(Default)]
pub struct Past {
    /// What went by transfer, and references whose call was released.
    pub references: HashSet<Reference>,
    pub ended: HashSet<Reference>,
    pub links: HashSet<LinkId>,
    /// Legs that were released, and those that went with their partner.
    pub released: HashSet<u32>,
    pub went: HashSet<u32>,
    /// Legs whose call was the named one of their transfer.
    pub named: HashSet<u32>,
    /// Joined legs that have answered.
    pub answered: HashSet<u32>,
    /// Joined legs that a Leg facility was passed on from and to, and those of one refused with 12.
    pub passed: HashSet<(u32, u32)>,
    pub refused: HashSet<u32>,
    /// Legs that an Inform was told to, and those of them that were told another number than their own.
    pub informed: HashSet<u32>,
    pub other_number: HashSet<u32>,
    /// The type of the last party that a row had.
    pub types: HashMap<usize, u8>,
}

/// One event with the board before and after it.
pub struct Moment<'a> {
    pub before: &'a Board,
    pub after: &'a Board,
    pub record: &'a [u8],
    pub returned: u8,
    pub written: &'a [u8],
}

impl Moment<'_> {
    /// The octet behind the component of a Leg facility or an Inform; none behind 64.
    pub fn left_behind(&self, component: &[u8]) -> Option<u8> {
        let place = Carrier::of(self.record[0])?.component_at() + component.len();
        self.record.get(place).copied()
    }
}

/// What the engine did that no engine may do, and at which event, counted from 1.
#[derive(PartialEq, Eq, Debug)]
pub struct Fault {
    pub event: usize,
    pub what: String,
}

/// Plays a log and tallies it; says what is at fault.
pub fn watch(log: &[u8], tally: &mut Tally) -> Result<(), Fault> {
    tally.logs += 1;
    let Some((mut board, mut rest)) = start(log) else {
        notice_options::bad(log, tally);
        return Ok(());
    };
    tally.add(notice_options::good(&board));
    tally.add_if(rest.is_empty(), Seen::NoRecords);
    let mut past = Past::default();
    let mut number = 0;
    while let Some((record, after)) = next_record(rest) {
        number += 1;
        let before = board.clone();
        let mut buffer = [0x5A; BUFFER];
        let answer = event(&mut board, record, &mut buffer);
        let Answer { returned, written } = answer;
        let moment = Moment { before: &before, after: &board, record, returned, written: &buffer[..written] };
        stands(&before, &board, answer, &buffer)
            .and_then(|()| invokes_stand(&moment, tally))
            .and_then(|()| places::stands(&moment))
            .and_then(|()| american::stands(&moment))
            .and_then(|()| alike::stands(&moment))
            .and_then(|()| console::stands(&moment))
            .and_then(|()| opened::stands(&moment))
            .map_err(|what| Fault { event: number, what })?;
        notice(&moment, &mut past, tally);
        console::notice(&moment, tally);
        notice_explicit::notice(&moment, tally);
        tally.add_if(returned == 4 && rest.len() == 1, Seen::UnknownKindLast);
        if let (Some(carrier), [_]) = (Carrier::of(record[0]), after) {
            tally.add((carrier, CarrierSeen::OneBehind));
        }
        tally.add_if(record[0] == OPEN_TYPED && after.len() == 1, TypeSeen::OneBehind);
        rest = after;
    }
    notice_history::notice(log, tally);
    tally.events += number as u64;
    Ok(())
}

/// What holds of every event: a sound board after it, nothing changed by a refusal or by
/// an error, nothing written beyond the octets counted.
fn stands(before: &Board, after: &Board, answer: Answer, buffer: &[u8; BUFFER]) -> Result<(), String> {
    let error = answer.written == 36 && matches!(buffer[4], 0xA3 | 0xA4);
    if (answer.returned != 0 || error) && before != after {
        return Err("a refusal or an error changed the board".to_string());
    }
    if answer.written > MOST_WRITTEN {
        return Err(format!("{} octets were written", answer.written));
    }
    if answer.returned != 0 && answer.written != 0 {
        return Err("a refusal wrote octets".to_string());
    }
    if buffer[answer.written..].iter().any(|&octet| octet != 0x5A) {
        return Err("octets beyond those counted were written".to_string());
    }
    if !parties_kept(before, after) {
        return Err("a row that stays taken has another party".to_string());
    }
    if !board_sound(after) {
        return Err("the board is no longer sound".to_string());
    }
    Ok(())
}

/// A row that stays taken keeps all but its standing.
fn parties_kept(before: &Board, after: &Board) -> bool {
    let taken = |row: &Row| row.standing != Standing::Empty;
    before
        .rows
        .iter()
        .zip(&after.rows)
        .all(|(row, now)| !taken(row) || !taken(now) || *now == Row { standing: now.standing, ..*row })
}

/// What holds of every invoke that a Facility handed over: see `rewritten` and `looked_up`.
fn invokes_stand(moment: &Moment, tally: &mut Tally) -> Result<(), String> {
    match Event::read(moment.record) {
        Ok(Event::Facility { reference, component }) if moment.returned == 0 => {
            rewritten(component, tally).and_then(|()| looked_up(moment, reference, component, tally))
        }
        _ => Ok(()),
    }
}

fn notice(moment: &Moment, past: &mut Past, tally: &mut Tally) {
    match (moment.returned, Carrier::of(moment.record[0])) {
        (3, carrier) => {
            tally.add(Seen::CutRecord);
            tally.add_if(moment.record.len() == 1, Seen::CutAfterKind);
            if let Some(carrier) = carrier {
                notice_carrier::cut(moment.record, carrier, tally);
            }
            notice_open::cut(moment.record, tally);
        }
        (_, Some(carrier)) => notice_carrier::judged(moment, carrier, past, tally),
        (0, _) => accepted(moment, past, tally),
        (4, _) => tally.add(Seen::UnknownKind),
        (5, _) => bad_field(moment, tally),
        (6..=8, _) => open_refused(moment, tally),
        (9, _) => no_call(moment, past, tally),
        (10, _) => {
            tally.add(if moment.record[0] == RELEASE { Seen::NoLegRelease } else { Seen::NoLegAnswer })
        }
        _ => not_permitted(moment, past, tally),
    }
}

pub fn row_of_leg(board: &Board, leg: u32) -> Option<&Row> {
    board.rows.iter().find(|row| row.leg == leg && row.standing != Standing::Empty)
}

pub fn call_of(board: &Board, reference: Reference) -> Option<&Call> {
    board.rows.iter().filter_map(Row::call).find(|call| call.reference == reference)
}

fn accepted(moment: &Moment, past: &mut Past, tally: &mut Tally) {
    match Event::read(moment.record) {
        Ok(Event::Open { reference, leg, .. }) => opened(moment, reference, leg, past, tally),
        Ok(Event::Progress { reference, state }) => {
            let Some(call) = call_of(moment.before, reference) else { return };
            tally.add(match (call.state, state) {
                (CallState::Proceeding, CallState::Delivered) => Seen::Progress3To4,
                (CallState::Proceeding, _) => Seen::Progress3To10,
                (CallState::Delivered, _) => Seen::Progress4To10,
                _ => Seen::Progress7To10,
            });
            tally.add_if(call.aux != Aux::Idle, Seen::ProgressHeld);
        }
        Ok(Event::Hold { reference, aux }) => held(moment, reference, aux, past, tally),
        Ok(Event::Release { leg }) => released(moment, leg, past, tally),
        Ok(Event::Answer { leg }) => {
            let Some(row) = row_of_leg(moment.before, leg) else { return };
            notice_answer::answered(moment.before, row, past, tally);
            notice_leg::answered(row, past, tally);
        }
        Ok(Event::Facility { reference, component }) => {
            notice_component::served(moment, reference, component, past, tally);
        }
        Ok(Event::LegFacility { .. } | Event::Inform { .. }) | Err(_) => {}
    }
}

fn opened(moment: &Moment, reference: Reference, leg: u32, past: &mut Past, tally: &mut Tally) {
    let Some(place) =
        moment.after.rows.iter().position(|row| row.leg == leg && row.standing != Standing::Empty)
    else {
        return;
    };
    notice_open::opened(moment, place, past, tally);
    let row = &moment.after.rows[place];
    let incoming = row.call().is_some_and(|call| call.direction == INCOMING);
    tally.add(if incoming { Seen::OpenIncoming } else { Seen::OpenOutgoing });
    let restricted = row.presentation == 1;
    tally.add_if(row.number.count() == 0, Seen::OpenNoDigits);
    tally.add_if(row.number.count() == 15, Seen::OpenFifteen);
    tally.add_if(restricted && row.number.count() > 0, Seen::OpenRestricted);
    tally.add_if(restricted && row.number.count() == 0, Seen::OpenRestrictedNone);
    tally.add_if(leg == 0, Seen::OpenLegZero);
    tally.add_if(leg == u32::MAX, Seen::OpenLegHighest);
    let twin = Reference(reference.0 ^ 0x8000);
    tally.add_if(call_of(moment.before, twin).is_some(), Seen::OpenTwin);
    let below = moment.before.rows[place..].iter().any(|row| row.standing != Standing::Empty);
    tally.add_if(below, Seen::OpenGap);
    tally.add_if(place == 63, Seen::OpenLast);
}

fn held(moment: &Moment, reference: Reference, aux: Aux, past: &Past, tally: &mut Tally) {
    let Some(call) = call_of(moment.before, reference) else { return };
    notice_inform::held(moment.before, reference, past, tally);
    tally.add(match (call.aux, aux) {
        (Aux::Idle, _) => Seen::Hold0To1,
        (Aux::HoldRequest, Aux::Held) => Seen::Hold1To2,
        (Aux::HoldRequest, _) => Seen::Hold1To0,
        (Aux::Held, _) => Seen::Hold2To3,
        (Aux::RetrieveRequest, Aux::Idle) => Seen::Hold3To0,
        (Aux::RetrieveRequest, _) => Seen::Hold3To2,
    });
    let delivered = call.state == CallState::Delivered;
    tally.add(if delivered { Seen::HoldDelivered } else { Seen::HoldActive });
}

fn released(moment: &Moment, leg: u32, past: &mut Past, tally: &mut Tally) {
    let Some(row) = row_of_leg(moment.before, leg) else { return };
    let rules = moment.before.rules();
    notice_leg::released(row, past, tally);
    notice_inform::released(row, past, tally);
    match row.standing {
        Standing::Served(call) => {
            tally.add(Seen::ReleaseServed);
            tally.add_if(call.link.is_some(), Seen::ReleaseLinked);
        }
        Standing::Joined { alerts: true, .. } => tally.add((rules, RuleSeen::ReleaseAlerting)),
        Standing::Joined { partner, .. } => {
            let other = row_of_leg(moment.before, partner).map(|row| row.standing);
            let waiting = matches!(other, Some(Standing::Joined { alerts: true, .. }));
            tally.add((rules, if waiting { RuleSeen::ReleaseWaiting } else { RuleSeen::ReleaseJoined }));
        }
        Standing::Empty => {}
    }
}
