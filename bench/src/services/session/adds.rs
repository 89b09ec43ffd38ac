//! Adding an event. What is told of it is what `judge` is told of the events with it, less the firings
//! of those before it, which are the plain side's.

use super::whole::once;
use super::{answered, leaving, of_records, refused, Add, Call, MOST, WORDS};
use crate::answers::{Added, Judged};
use crate::case::{images_at_fault, Case, Side};
use crate::grammars::{chain, flagged, stop};
use crate::random::Random;
use crate::records::{self, Input};
use crate::services::{called, compare, time};
use crate::sizes::cells;
use crate::{ours, plain};

const SIDES: &[Side<Add>] = &[
    ("ours", ours::add),
    ("plain", plain::add),
    ("skipping", plain::add_skipping),
];

pub fn run(rounds: usize) {
    let mut sides = called(SIDES, adding);
    compare(&sides, &[], &others());
    sides.push(("judge", once(ours::judge)));
    let timed = of_records(&[1, 8, 16, MOST], added);
    let every: Vec<_> = (1..=MOST).collect();
    compare(&sides, &timed, &of_records(&every, added));
    time(&sides, &timed, rounds);
}

/// Adds the last event. Before that only the count is set back: what the words of the new column hold
/// doesn't matter.
fn adding(add: Add) -> Call {
    Box::new(move |input, lent| {
        let (chart, count) = lent.session();
        *count = input.session.count;
        let event = input.events[input.events.len() - 1];
        add(&input.image, chart, count, event)
    })
}

/// The last event of a record, added to the session of those before it.
fn added(case: Case<Judged>) -> Case<Added> {
    let earlier = case.input.events.len() - 1;
    let input = case.input.with_session_of(earlier);
    let firings = case.told.firings - input.session.firings;
    one_more(input, answered(case.told.admitted, firings), &[])
}

/// An add that isn't refused, and what is known of the new column.
fn one_more(input: Input, told: Added, column: &[u64]) -> Case<Added> {
    let count = input.session.count + 1;
    let first = [&input.session.chart, column].concat();
    leaving(input, told, count, cells(count as usize), first)
}

/// Refusals, and sessions that no adds give.
fn others() -> Vec<Case<Added>> {
    let at_counts = |(refusal, image): (_, Vec<u8>)| {
        [0, 3, 32].map(|count| refused(image.clone(), refusal, count))
    };
    let mut cases: Vec<_> = images_at_fault().into_iter().flat_map(at_counts).collect();
    cases.extend([32, 33, 1 << 32, u64::MAX].map(|count| refused(stop(), 17.into(), count)));
    cases.extend(all_ones());
    cases.extend([1, 8, 16, 31].into_iter().flat_map(drawn));
    cases
}

/// Every bit of the older columns is one, those of no symbol too. The firings and the new column were
/// worked out by hand.
fn all_ones() -> [Case<Added>; 5] {
    let columns: [(_, _, _, &[u64]); 5] = [
        (flagged(&chain(), 1), 8, 0, &[0]),
        (chain(), 8, 0, &[0; 6]),
        (chain(), 7, 16, &[1; 6]),
        (stop(), 2, 1, &[0, 0, 0, 0, 0, 16]),
        (stop(), 3, 32, &[11, 11, 11, 11, 8, 32]),
    ];
    columns.map(|(image, event, firings, column)| {
        let earlier = column.len() - 1;
        let older = vec![u64::MAX; cells(earlier)];
        let input = Input::new("all ones", image, &[event]).with_session(earlier as u64, older);
        one_more(input, answered(column[0] & 1 == 1, firings), column)
    })
}

/// The older columns are drawn. What is told is the plain side's own answer.
fn drawn(earlier: usize) -> [Case<Added>; 3] {
    let mut random = Random::new(1);
    [records::full(1), records::sevens(1), records::stops_to(1)].map(|record| {
        let older: Vec<_> = (0..cells(earlier)).map(|_| random.word()).collect();
        let (mut chart, mut count) = ([0; WORDS], earlier as u64);
        chart[..older.len()].copy_from_slice(&older);
        let told = plain::add(&record.image, &mut chart, &mut count, record.events[0]);
        one_more(record.with_session(earlier as u64, older), told, &[])
    })
}
