//! What a Leg facility and an Inform do. The board is only looked at.

use crate::board::{Board, CallState, Reference, Standing};
use crate::event::named;
use crate::inform::{read, Indication};
use crate::lookup::Lookup;
use crate::reply::{Message, Replies, Told, ACTIVE, ALERTING};
use crate::subaddress::is_transfer;

/// The partner gets the component as it is.
pub fn pass_on(
    board: &Board,
    index: &impl Lookup,
    leg: u32,
    component: &[u8],
    replies: &mut Replies,
) -> Result<(), u8> {
    let place = index.leg(&board.rows, leg).ok_or(10)?;
    let Standing::Joined { partner, .. } = board.rows[place].standing else { return Err(11) };
    if !is_transfer(component) {
        return Err(12);
    }
    replies.pass_on(partner, component);
    Ok(())
}

/// The far party is told what the private exchange says.
pub fn inform(
    board: &Board,
    index: &impl Lookup,
    reference: Reference,
    component: &[u8],
    replies: &mut Replies,
) -> Result<(), u8> {
    let (place, call) = named(board, index, reference)?;
    if call.state != CallState::Active {
        return Err(11);
    }
    let told = read(component).ok_or(12)?;
    let leg = board.rows[place].leg;
    match told.indication {
        Indication::Alerting => replies.tell(leg, Message::Notify, ALERTING, 0, Told::Unknown),
        Indication::Active => replies.tell(leg, Message::Facility, ACTIVE, 1, told.number),
    }
    Ok(())
}
