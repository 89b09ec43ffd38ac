//! Sessions from their beginning, beside fresh judgements: one after each event, and one of all events.

use super::{answered, leaving, of_records, Add, Call, MOST, WORDS};
use crate::answers::{Added, Judged};
use crate::case::{Case, Side};
use crate::services::judge::Judge;
use crate::services::{compare, time};
use crate::sizes::SessionChart;
use crate::{ours, plain};

type Begin = fn(&mut SessionChart, &mut u64);

/// Those that add, which come first.
const ADDING: usize = 3;

pub fn run(rounds: usize) {
    let sides = sides();
    compare(&sides[..ADDING], &[], &of_records(&[0, 1, 5, 31], grown));
    let timed = of_records(&[MOST], grown);
    compare(&sides, &timed, &[]);
    time(&sides, &timed, rounds);
}

fn sides() -> Vec<Side<Call>> {
    vec![
        ("ours", growing(ours::begin, ours::add)),
        ("plain", growing(plain::begin, plain::add)),
        ("skipping", growing(plain::begin, plain::add_skipping)),
        ("ours, each", each(ours::judge)),
        ("plain, each", each(plain::judge)),
        ("skipping, each", each(plain::judge_skipping)),
        ("ours, once", once(ours::judge)),
        ("plain, once", once(plain::judge)),
        ("skipping, once", once(plain::judge_skipping)),
    ]
}

/// Begins a session and adds all events. The verdict is the last one, and the firings are those of all
/// columns.
fn growing(begin: Begin, add: Add) -> Call {
    Box::new(move |input, lent| {
        let (chart, count) = lent.session();
        begin(chart, count);
        let mut so_far = Added::default();
        for &event in &input.events {
            let added = add(&input.image, chart, count, event);
            let firings = so_far.firings + added.firings;
            so_far = Added { firings, ..added };
        }
        so_far
    })
}

/// Judges the events so far afresh after each one.
fn each(judge: Judge) -> Call {
    let all = once(judge);
    Box::new(move |input, lent| {
        for events in 1..input.events.len() {
            let (chart, _) = lent.session();
            judge(&input.image, &input.events[..events], chart);
        }
        all(input, lent)
    })
}

/// Judges all events afresh. The firings are those of the events behind the session's.
pub fn once(judge: Judge) -> Call {
    Box::new(move |input, lent| {
        let (chart, count) = lent.session();
        let judged = judge(&input.image, &input.events, chart);
        *count = input.events.len() as u64;
        Added {
            refusal: judged.refusal,
            admitted: judged.admitted,
            firings: judged.firings - input.session.firings,
        }
    })
}

/// The session of a record. Its memory holds any count and words when it begins, and behind the columns
/// it has zeros.
fn grown(case: Case<Judged>) -> Case<Added> {
    let told = answered(case.told.admitted, case.told.firings);
    let events = case.input.events.len();
    let mut chart = case.input.clone().with_session_of(events).session.chart;
    chart.resize(WORDS, 0);
    let input = case.input.with_session(u64::MAX, Vec::new());
    leaving(input, told, events as u64, WORDS, chart)
}
