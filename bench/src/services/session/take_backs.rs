//! Taking the last event back.

use super::{leaving, of_records, refused, MOST};
use crate::answers::{Judged, Refusal};
use crate::case::{Case, Lent, Side};
use crate::grammars::stop;
use crate::records::Input;
use crate::services::{called, compare, judge, time};
use crate::sizes::{cells, SessionChart};
use crate::{ours, plain};

type TakeBack = fn(&mut SessionChart, &mut u64) -> Refusal;

const SIDES: &[Side<TakeBack>] = &[("ours", ours::take_back), ("plain", plain::take_back)];

pub fn run(rounds: usize) {
    // Only the count is set back: a column that is cleared already takes as long.
    let side = |take_back: TakeBack| {
        move |input: &Input, lent: &mut Lent| {
            let (chart, count) = lent.session();
            *count = input.session.count;
            take_back(chart, count)
        }
    };
    let sides = called(SIDES, side);
    let timed = [1, MOST].map(|events| taken_back(judge::full(events)));
    let every: Vec<_> = (1..=MOST).collect();
    let mut others = of_records(&every, taken_back);
    others.extend([0, 33, 1 + (1 << 32), u64::MAX].map(|count| refused(stop(), 18.into(), count)));
    compare(&sides, &timed, &others);
    time(&sides, &timed, rounds);
}

/// The last event of a record's session.
fn taken_back(case: Case<Judged>) -> Case<Refusal> {
    let events = case.input.events.len();
    let input = case.input.with_session_of(events);
    let mut chart = input.session.chart.clone();
    chart[cells(events - 1)..].fill(0);
    leaving(input, 0.into(), events as u64 - 1, cells(events), chart)
}
