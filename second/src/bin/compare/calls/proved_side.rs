//! The proved side, from its archive.

use crate::calls::side::{answer, Side};

pub const PROVED: Side = Side {
    test: |image| {
        let tested = archive::test(image);
        let counts = [tested.symbols, tested.leaves, tested.pairs];
        let rest = counts.map(|count| count as u64);
        answer(tested.refusal, tested.rule, rest)
    },
    judge: |image, events, chart| {
        let judged = archive::judge(image, events, chart);
        let rest = [judged.admitted.into(), judged.items, judged.firings];
        answer(judged.refusal, judged.rule, rest)
    },
    count: |image, events, table| {
        let counted = archive::count(image, events, table);
        answer(counted.refusal, counted.rule, [counted.total.into(), 0, 0])
    },
    reading: |image, events, k, table, script| {
        let read = archive::reading(image, events, k, table, script);
        answer(read.refusal, read.rule, [0; 3])
    },
    check: |image, events, script| {
        let checked = archive::check(image, events, script);
        answer(checked.refusal, checked.rule, [checked.yes.into(), 0, 0])
    },
    number: |image, events, script, table| {
        let numbered = archive::number(image, events, script, table);
        let rest = [numbered.reading.into(), 0, 0];
        answer(numbered.refusal, numbered.rule, rest)
    },
    page: |image, events, k, m, table, room| {
        let paged = archive::page(image, events, k, m, table, room);
        answer(paged.refusal, paged.rule, [paged.written.into(), 0, 0])
    },
    begin: |chart, count| {
        archive::begin(chart, count);
        answer(0, 0, [0; 3])
    },
    add: |image, chart, count, event| {
        let added = archive::add(image, chart, count, event);
        let rest = [added.admitted.into(), added.firings, 0];
        answer(added.refusal, added.rule, rest)
    },
    take_back: |chart, count| {
        let number = archive::take_back(chart, count);
        answer(number, 0, [0; 3])
    },
    judge_bytes: |image, events, chart| {
        let judged = archive::judge_bytes(image, events, chart);
        let rest = [judged.admitted.into(), judged.items, judged.firings];
        answer(judged.refusal, judged.rule, rest)
    },
    count_bytes: |image, events, table| {
        let counted = archive::count_bytes(image, events, table);
        answer(counted.refusal, counted.rule, [counted.total.into(), 0, 0])
    },
    reading_bytes: |image, events, k, table, script| {
        let read = archive::reading_bytes(image, events, k, table, script);
        answer(read.refusal, read.rule, [0; 3])
    },
};
