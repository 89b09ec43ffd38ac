//! The times of `judge` by the events of a record and by the items of a cell.

use crate::answers::Judged;
use crate::case::{verify, Case};
use crate::services::judge;
use crate::timing;

/// Prints a table, its columns parted by tabs: what the times grow with, the record, how much of
/// it there is, and then the median times of the sides, in microseconds.
pub fn print(rounds: usize) {
    let sides = judge::sides();
    let names: Vec<_> = sides.iter().map(|side| side.0).collect();
    println!("by\trecord\tamount\t{}", names.join("\t"));
    for (by, record, amount, case) in cases() {
        verify(&sides, &case);
        let times = timing::measure(&sides, &case, rounds);
        print!("{by}\t{record}\t{amount}");
        (0..sides.len()).for_each(|side| print!("\t{:.3}", times.median(side)));
        println!();
    }
}

type Row = (&'static str, &'static str, usize, Case<Judged>);

fn cases() -> Vec<Row> {
    let records = [
        judge::full,
        judge::fifteen,
        judge::five,
        judge::nearly_empty,
    ];
    let by_events = |events| {
        records.map(|record| {
            let case = record(events);
            ("events", case.input.name, events, case)
        })
    };
    let by_items = |items| ("items a cell", "96 events", items, judge::first(items, 96));
    let mut cases: Vec<Row> = (8..=96).step_by(8).flat_map(by_events).collect();
    cases.extend([1, 2, 5, 10, 15, 24, 32, 48, 64].map(by_items));
    cases
}
