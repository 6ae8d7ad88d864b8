//! The program that plays logs, compared with the engine on logs in either order of two events.

use crate::compare::hex;
use crate::each_order;
use crate::either_order::Orders;
use crate::exchange::Exchange;
use crate::rng::Rng;
use crate::several::Several;
use crate::tally::Tally;
use crate::{order_logs, order_related, ordered};

/// Logs of one sort, those that any seed has last.
struct Sort {
    pairs: usize,
    make: fn(&mut Rng) -> Exchange,
    each: fn() -> Vec<Exchange>,
    watch: fn(&Exchange, &mut Tally) -> Result<Orders, String>,
}

const SORTS: [Sort; 2] = [
    Sort { pairs: 20_000, make: order_logs::exchange, each: each_order::unrelated, watch: ordered::watch },
    // They end with two records which the request leaves out.
    Sort {
        pairs: 2_000,
        make: order_related::exchange,
        each: each_order::related,
        watch: ordered::watch_related,
    },
];

/// Runs the program over all pairs of logs of a seed.
pub fn against(path: &str, seed: u64) -> Result<Tally, String> {
    let (mut rng, mut tally) = (Rng::new(seed), Tally::of_orders());
    Several::run(path, |several| {
        for sort in &SORTS {
            let each = (sort.each)();
            let made = (each.len()..sort.pairs).map(|_| (sort.make)(&mut rng));
            for exchange in made.chain(each) {
                let fault = |what| format!("log {}\nthe engine is at fault\n{what}", hex(&exchange.log));
                let orders = (sort.watch)(&exchange, &mut tally).map_err(fault)?;
                let other = exchange.other();
                if !several.take([(exchange.log, orders.first.text), (other, orders.second.text)]) {
                    return Ok(());
                }
            }
        }
        Ok(())
    })?;
    tally.all_met()?;
    Ok(tally)
}
