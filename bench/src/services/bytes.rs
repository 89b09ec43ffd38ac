//! `judge`, `count` and `reading` on bytes, beside our own on words and plain Rust that turns bytes into
//! words and back. The cases are those of each service on words.

use super::{compare_and_time, count, judge, reading};
use crate::answers::{Counted, Judged, Refusal};
use crate::case::{Case, Lent, Side};
use crate::records::{self, Input, LENGTHS};
use crate::sizes::splits;
use crate::{ours, plain};
use std::cell::RefCell;
use std::fmt::Debug;

/// How a side is called: on bytes or on words.
type Call<A> = Box<dyn Fn(&Input, &mut Lent) -> A>;

pub fn run(rounds: usize) {
    let mut judged = judge::timed();
    judged.extend(LENGTHS.map(judge::sevens));
    let mut read = reading::timed();
    let [_, first_of_two, ..] = records::readings();
    read.push(reading::written(first_of_two));
    on_bytes("judge", &judge_sides(), judged, judge::others(), rounds);
    on_bytes(
        "count",
        &count_sides(),
        count::timed(),
        count::others(),
        rounds,
    );
    on_bytes("reading", &reading_sides(), read, reading::others(), rounds);
}

fn on_bytes<A: Debug + PartialEq>(
    name: &str,
    sides: &[Side<Call<A>>],
    timed: Vec<Case<A>>,
    others: Vec<Case<A>>,
    rounds: usize,
) {
    println!("{name} on bytes");
    let [timed, others] =
        [timed, others].map(|cases| cases.into_iter().map(Case::on_bytes).collect());
    compare_and_time(sides, timed, others, splits, rounds);
}

fn judge_sides() -> [Side<Call<Judged>>; 3] {
    let words = RefCell::default();
    [
        (
            "ours",
            Box::new(|input, lent| {
                let bytes = lent.bytes();
                let (events, chart) = (bytes.events.bytes(), bytes.chart.bytes_mut());
                ours::judge_bytes(&input.image, events, chart)
            }),
        ),
        (
            "words",
            Box::new(|input, lent| ours::judge(&input.image, &input.events, &mut lent.chart)),
        ),
        (
            "plain",
            Box::new(move |input, lent| {
                let (bytes, words) = (lent.bytes(), &mut words.borrow_mut());
                let (events, chart) = (bytes.events.bytes(), bytes.chart.bytes_mut());
                plain::judge_bytes(&input.image, events, chart, words)
            }),
        ),
    ]
}

fn count_sides() -> [Side<Call<Counted>>; 3] {
    let words = RefCell::default();
    [
        (
            "ours",
            Box::new(|input, lent| {
                let bytes = lent.bytes();
                let (events, table) = (bytes.events.bytes(), bytes.table.bytes_mut());
                ours::count_bytes(&input.image, events, table)
            }),
        ),
        (
            "words",
            Box::new(|input, lent| ours::count(&input.image, &input.events, &mut lent.table)),
        ),
        (
            "plain",
            Box::new(move |input, lent| {
                let (bytes, words) = (lent.bytes(), &mut words.borrow_mut());
                let (events, table) = (bytes.events.bytes(), bytes.table.bytes_mut());
                plain::count_bytes(&input.image, events, table, words)
            }),
        ),
    ]
}

fn reading_sides() -> [Side<Call<Refusal>>; 3] {
    let words = RefCell::default();
    [
        (
            "ours",
            Box::new(|i, lent| {
                let bytes = lent.bytes();
                let (table, room) = (bytes.table.bytes_mut(), bytes.script.bytes_mut());
                ours::reading_bytes(&i.image, bytes.events.bytes(), i.k, table, room)
            }),
        ),
        (
            "words",
            Box::new(|i, lent| {
                ours::reading(&i.image, &i.events, i.k, &mut lent.table, &mut lent.script)
            }),
        ),
        (
            "plain",
            Box::new(move |i, lent| {
                let (bytes, words) = (lent.bytes(), &mut words.borrow_mut());
                let (table, room) = (bytes.table.bytes_mut(), bytes.script.bytes_mut());
                plain::reading_bytes(&i.image, bytes.events.bytes(), i.k, table, room, words)
            }),
        ),
    ]
}
