//! The second side: the services as they were written from the specification alone.

use crate::calls::side::{answer, Chart, Side};
use second::bytes;
use second::services;
use second::session::{self, Session};

pub const SECOND: Side = Side {
    test: |image| {
        let tested = services::test(image);
        let counts = [tested.symbols, tested.event_rules, tested.pair_rules];
        let rest = counts.map(|count| count as u64);
        answer(tested.number, tested.rule, rest)
    },
    judge: |image, events, chart| {
        let judged = services::judge(image, events, chart);
        let rest = [judged.admitted.into(), judged.items, judged.firings];
        answer(judged.number, judged.rule, rest)
    },
    count: |image, events, table| {
        let counted = services::count(image, events, table);
        answer(counted.number, counted.rule, [counted.total.into(), 0, 0])
    },
    reading: |image, events, k, table, script| {
        let read = services::reading(image, events, k, table, script);
        answer(read.number, read.rule, [0; 3])
    },
    check: |image, events, script| {
        let checked = services::check(image, events, script);
        answer(checked.number, checked.rule, [checked.yes.into(), 0, 0])
    },
    number: |image, events, script, table| {
        let numbered = services::number(image, events, script, table);
        let rest = [numbered.reading.into(), 0, 0];
        answer(numbered.number, numbered.rule, rest)
    },
    page: |image, events, k, m, table, room| {
        let paged = services::page(image, events, k, m, table, room);
        answer(paged.number, paged.rule, [paged.written.into(), 0, 0])
    },
    begin: |chart, count| {
        hand_back(session::begin(), chart, count);
        answer(0, 0, [0; 3])
    },
    add: |image, chart, count, event| {
        let (session, added) = session::add(image, held(chart, count), event);
        hand_back(session, chart, count);
        let rest = [added.admitted.into(), added.firings, 0];
        answer(added.number, added.rule, rest)
    },
    take_back: |chart, count| {
        let (session, number) = session::take_back(held(chart, count));
        hand_back(session, chart, count);
        answer(number, 0, [0; 3])
    },
    judge_bytes: |image, events, chart| {
        let judged = bytes::judge_bytes(image, events, chart);
        let rest = [judged.admitted.into(), judged.items, judged.firings];
        answer(judged.number, judged.rule, rest)
    },
    count_bytes: |image, events, table| {
        let counted = bytes::count_bytes(image, events, table);
        answer(counted.number, counted.rule, [counted.total.into(), 0, 0])
    },
    reading_bytes: |image, events, k, table, script| {
        let read = bytes::reading_bytes(image, events, k, table, script);
        answer(read.number, read.rule, [0; 3])
    },
};

/// The session that is lent in its two parts.
fn held(chart: &Chart, count: &u64) -> Session {
    Session {
        chart: *chart,
        count: *count,
    }
}

fn hand_back(session: Session, chart: &mut Chart, count: &mut u64) {
    (*chart, *count) = (session.chart, session.count);
}
