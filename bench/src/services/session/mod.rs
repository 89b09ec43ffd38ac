//! A session: an event added to those before it, whole sessions, and the last event taken back.

mod adds;
mod take_backs;
mod whole;

use super::judge;
use crate::answers::{Added, Judged, Refusal};
use crate::case::{Case, Lent};
use crate::records::{Input, Words};
use crate::sizes::SessionChart;

type Add = fn(&[u8], &mut SessionChart, &mut u64, u16) -> Added;

/// How a side is called: by adding, or by judging afresh.
type Call = Box<dyn Fn(&Input, &mut Lent) -> Added>;

/// The most events, and the words for them. They don't follow from the plain side's limit, so that a
/// wrong one is seen.
const MOST: usize = 32;
const WORDS: usize = 528;

pub fn run(rounds: usize) {
    println!("an event added");
    adds::run(rounds);
    println!("whole sessions");
    whole::run(rounds);
    println!("the last event taken back");
    take_backs::run(rounds);
}

/// Records of any number of events; over the last one rules fire.
const RECORDS: [fn(usize) -> Case<Judged>; 6] = [
    judge::stops,
    judge::sevens,
    judge::full,
    judge::mixed,
    judge::five,
    nearly_empty,
];

/// From its end, so that the last event is known.
fn nearly_empty(events: usize) -> Case<Judged> {
    let mut case = judge::nearly_empty(events);
    case.input.events.reverse();
    case
}

/// A case of each record for each number of events.
fn of_records<A>(numbers: &[usize], case: fn(Case<Judged>) -> Case<A>) -> Vec<Case<A>> {
    let of_record = |record: fn(usize) -> _| numbers.iter().map(move |&n| case(record(n)));
    RECORDS.into_iter().flat_map(of_record).collect()
}

fn answered(admitted: bool, firings: u64) -> Added {
    Added {
        refusal: 0.into(),
        admitted,
        firings,
    }
}

/// A call that is lent a session and more words behind it. It leaves so many events and so many words
/// that have been written, of which these are the first.
fn leaving<A: From<Refusal>>(
    input: Input,
    told: A,
    count: u64,
    written: usize,
    first: Vec<u64>,
) -> Case<A> {
    let of_chart = |chart| Words {
        chart,
        ..Words::default()
    };
    Case::new(input, of_chart(written), told)
        .with_room(of_chart(WORDS + 8))
        .knowing(move |lent| lent.count == count && lent.chart.starts_with(&first))
}

/// A call that is refused at such a count and leaves the session as it was.
fn refused<A: From<Refusal>>(image: Vec<u8>, refusal: Refusal, count: u64) -> Case<A> {
    let input = Input::new("refused", image, &[1]).with_session(count, Vec::new());
    leaving(input, refusal.into(), count, 0, Vec::new())
}
