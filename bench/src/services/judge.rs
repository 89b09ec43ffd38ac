//! `judge`. What is told was worked out by hand for any number of events, so that two equal wrong
//! answers are seen too; only what is told of `half` is the plain side's own answer.

use super::{called, compare_and_time};
use crate::answers::Judged;
#[cfg(before)]
use crate::before;
use crate::case::{at_fault, Case, Lent, Side};
use crate::records::{self, Input, Words, LENGTHS};
use crate::sizes::{cells, splits};
use crate::{ours, plain};

pub type Judge = fn(&[u8], &[u16], &mut [u64]) -> Judged;

/// In the order of every table.
const SIDES: &[Side<Judge>] = &[
    ("ours", ours::judge),
    #[cfg(before)]
    ("before", before::judge),
    ("plain", plain::judge),
    ("skipping", plain::judge_skipping),
];

pub fn run(rounds: usize) {
    compare_and_time(&sides(), timed(), others(), splits, rounds);
}

pub fn sides() -> Vec<Side<impl Fn(&Input, &mut Lent) -> Judged>> {
    let side = |judge: Judge| {
        move |input: &Input, lent: &mut Lent| judge(&input.image, &input.events, &mut lent.chart)
    };
    called(SIDES, side)
}

/// What is told of a record: the verdict, the items and the firings.
type Told = (bool, u64, u64);

/// Every cell holds the same number of symbols, each leaf by one rule for a symbol, and at every
/// split the same number of pair rules fires. With all of the largest grammar, over 96 events, that
/// is 37,750,784 firings.
fn even(events: usize, symbols: usize, pairs: usize) -> Told {
    let items = symbols * cells(events);
    let firings = symbols * events + pairs * splits(events);
    (events > 0, items as u64, firings as u64)
}

pub fn timed() -> Vec<Case<Judged>> {
    let mut cases: Vec<_> = LENGTHS.into_iter().flat_map(long).collect();
    cases.extend([
        judged(records::short(), (true, 64, 64)),
        judged(records::slowly_tested(), (false, 1, 1)),
        judged(records::sevens(3), (true, 6, 7)),
        judged(records::stops(), (true, 13, 13)),
    ]);
    cases
}

fn long(events: usize) -> Vec<Case<Judged>> {
    let [half, mixed] = records::drawn(events);
    let chart = &mut vec![0; half.needs().chart];
    let own = plain::judge(&half.image, &half.events, chart);
    vec![
        full(events),
        judged(records::skewed(events), even(events, 64, 256)),
        judged(half, (own.admitted, own.items, own.firings)),
        of_mixed(mixed),
        fifteen(events),
        five(events),
        nearly_empty(events),
    ]
}

pub fn full(events: usize) -> Case<Judged> {
    judged(records::full(events), even(events, 64, 256))
}

/// One symbol of each of 16 pairs and 32 others, and one rule of four for each pair and of two for the
/// others.
fn of_mixed(input: Input) -> Case<Judged> {
    let told = even(input.events.len(), 48, 112);
    judged(input, told)
}

pub fn mixed(events: usize) -> Case<Judged> {
    of_mixed(records::mixed(events))
}

pub fn sevens(events: usize) -> Case<Judged> {
    judged(records::sevens(events), even(events, 1, 1))
}

/// Every event, tail and stop, and every row of stops as a day. All are read in one way: there are as
/// many firings.
pub fn stops(events: usize) -> Case<Judged> {
    let (tails, stops) = ((events + 1) / 3, events / 3);
    let items = (events + tails + stops + cells(stops)) as u64;
    let admitted = stops > 0 && 3 * stops == events;
    judged(records::stops_to(events), (admitted, items, items))
}

/// Rules t and t + d of a symbol are equal where the number of symbols divides 13 d and 29 d, and so d:
/// a symbol has four rules, or as many as there are symbols.
pub fn first(symbols: usize, events: usize) -> Case<Judged> {
    let pairs = symbols * symbols.min(4);
    judged(
        records::first(symbols, events),
        even(events, symbols, pairs),
    )
}

pub fn fifteen(events: usize) -> Case<Judged> {
    one_of_each(records::fifteen(events), 15)
}

pub fn five(events: usize) -> Case<Judged> {
    one_of_each(records::five(events), 5)
}

/// A symbol of each class and never the start.
fn one_of_each(input: Input, classes: usize) -> Case<Judged> {
    let (_, items, firings) = even(input.events.len(), classes, classes);
    judged(input, (false, items, firings))
}

/// In sixteen events 64 symbols each: two leaves by one rule, and with the second a stretch of two by
/// four rules.
pub fn nearly_empty(events: usize) -> Case<Judged> {
    let (first, second) = (events.div_ceil(16), (events + 14) / 16);
    let (leaves, twos) = (64 * (first + second) as u64, 64 * second as u64);
    let few = ((1..=2).contains(&events), leaves + twos, leaves + 4 * twos);
    judged(records::nearly_empty(events), few)
}

/// The ones in the chart are as many as the items.
fn judged(input: Input, (admitted, items, firings): Told) -> Case<Judged> {
    let chart = input.needs().chart;
    let written = Words {
        chart,
        ..Words::default()
    };
    let told = Judged {
        refusal: 0.into(),
        admitted,
        items,
        firings,
    };
    let ones = |words: &[u64]| words.iter().map(|w| w.count_ones() as u64).sum::<u64>();
    Case::new(input, written, told).knowing(move |lent| ones(&lent.chart[..chart]) == items)
}

/// Empty records and refusals.
pub fn others() -> Vec<Case<Judged>> {
    let input = records::stops();
    let chart = input.needs().chart - 1;
    let room = Words {
        chart,
        ..input.needs()
    };
    let mut cases = at_fault();
    cases.push(Case::refused(input, 9).with_room(room));
    let no_events = [
        (records::sevens(0), false),
        (records::quiet(0), false),
        (records::quiet(1), true),
    ];
    cases.extend(no_events.map(|(input, admitted)| judged(input, (admitted, 0, 0))));
    cases
}
