//! Logs that are a short history, or one with an event behind it that is refused.

use crate::tally::{before, occurrences};

occurrences! {
    HistorySeen, behind before(40);
    Of0 = "of no record",
    Of1 = "of 1 record",
    Of2 = "of 2 records",
    Of3 = "of 3 records",
    Of4 = "of 4 records",
    Of0Then9 = "of no record, then 9",
    Of0Then10 = "of no record, then 10",
    Of1Then6 = "of 1 record, then 6",
    Of1Then9 = "of 1 record, then 9",
    Of1Then10 = "of 1 record, then 10",
    Of2Then6 = "of 2 records, then 6",
    Of2Then9 = "of 2 records, then 9",
    Of2Then10 = "of 2 records, then 10",
    Of2Then11 = "of 2 records, then 11",
    Of3Then6 = "of 3 records, then 6",
    Of3Then9 = "of 3 records, then 9",
    Of3Then10 = "of 3 records, then 10",
    Of3Then11 = "of 3 records, then 11",
}
