//! Logs with records exchanged, as wholes.

use crate::couple::Couple;
use crate::either_order::Orders;
use crate::exchange::Exchange;
use crate::order_logs::places;
use crate::order_past::Past;
use crate::seen_around::ExchangedSeen::{self, *};
use crate::seen_options::by_options;
use crate::tally::Tally;
use crate::{notice_around, notice_couple};

const OPTIONS: [[ExchangedSeen; 4]; 3] = by_options!(ExchangedSeen);

pub fn notice(exchange: &Exchange, orders: &Orders, tally: &mut Tally) {
    let Exchange { log, places: exchanged } = exchange;
    let (records, played) = (exchange.records(), &orders.first);
    let mut past = Past::default();
    for (place, (record, step)) in records.iter().zip(&played.steps).enumerate() {
        if exchanged.contains(&place) {
            if let Some(couple) = Couple::new(&records, played, place, &past) {
                notice_couple::notice(&couple, tally);
                notice_around::notice(&couple, tally);
            }
        }
        past.keep(record, step);
    }
    tally.logs += 2;
    tally.events += 2 * records.len() as u64;
    tally.add(OPTIONS[log[0] as usize][log[1] as usize]);
    tally.add(match exchanged.len() {
        1 => One,
        2 => Two,
        3 => Three,
        4..10 => Four,
        _ => Ten,
    });
    // Those that have neither of their records exchanged.
    let apart = |place: &usize| exchanged.iter().all(|own| own.abs_diff(*place) > 1);
    tally.add(if places(log).iter().any(apart) { SomeLeft } else { AllThere });
    let accepted = |place: &usize| played.steps[*place..*place + 4].iter().all(|step| step.returned == 0);
    let touching = exchanged.windows(2).filter(|two| two[1] - two[0] == 2).map(|two| two[0]);
    let touching: Vec<usize> = touching.collect();
    tally.add_if(!touching.is_empty(), Touching);
    tally.add_if(touching.iter().any(accepted), TouchingAccepted);
    tally.add_if(records.len() <= 10, Few);
    tally.add_if(records.len() > 100, Many);
}
