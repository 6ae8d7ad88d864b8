//! What holds of a log in either order of two events, judged beside the engine.

use crate::either_order::{Orders, Right};
use crate::event::{ANSWER, HOLD, INFORM, LEG_FACILITY};
use crate::exchange::Exchange;
use crate::order_texts::Otherwise;
use crate::stepped::unrelated;
use crate::tally::Tally;
use crate::{notice_exchange, notice_related};

/// Progress and Hold events of different references, exchanged: all is the same.
pub fn watch(exchange: &Exchange, tally: &mut Tally) -> Result<Orders, String> {
    let records = exchange.records();
    if !exchange.places.iter().all(|&place| unrelated(records[place], records[place + 1])) {
        return Err("records are exchanged that the request leaves out".to_string());
    }
    let orders = Orders::of(exchange, Right);
    orders.same(exchange).map_err(|otherwise| otherwise.to_string())?;
    orders.by_rows(exchange)?;
    notice_exchange::notice(exchange, &orders, tally);
    Ok(orders)
}

/// The last two records, which the request leaves out. Where all answers are the same the board is too; and an
/// Answer and a Leg facility, which touch joined legs alone, come to the same beside a Progress and a Hold, and so
/// does an Inform beside a Hold.
pub fn watch_related(exchange: &Exchange, tally: &mut Tally) -> Result<Orders, String> {
    let orders = Orders::of(exchange, Right);
    orders.by_rows(exchange)?;
    let same = match orders.same(exchange) {
        Ok(()) => true,
        Err(Otherwise::Answer(_)) if !never_otherwise(exchange) => false,
        Err(otherwise) => return Err(otherwise.to_string()),
    };
    notice_related::notice(exchange, &orders, same, tally);
    Ok(orders)
}

fn never_otherwise(exchange: &Exchange) -> bool {
    let (place, records) = (exchange.places[0], exchange.records());
    matches!(
        [records[place][0], records[place + 1][0]],
        [ANSWER | LEG_FACILITY, _] | [_, ANSWER | LEG_FACILITY] | [INFORM, HOLD] | [HOLD, INFORM]
    )
}
