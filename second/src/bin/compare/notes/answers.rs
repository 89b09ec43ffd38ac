//! What the tally says of a call and its answer.

use crate::calls::call::Call;
use crate::calls::called::Called;
use crate::calls::setting::{Setting, Step};
use crate::calls::side::Answer;
use crate::draw::lengths::LENGTHS;
use crate::notes::images::remarks;
use crate::notes::needs::{later_refusal, table_words};
use crate::notes::tally::Tally;
use crate::notes::{bytes, filled, pages, quiet};
use second::services::MOST_EVENTS;

/// The firings of the largest image and record with every symbol in every cell.
const MOST_FIRINGS: u64 = 37_750_784;

pub fn note(tally: &mut Tally, step: &Step, second: &Called) {
    let answer = &second.answer;
    let number = answer.number;
    note_number(tally, &step.setting, answer);
    note_image(tally, &step.setting, answer);
    note_length(tally, step, answer);
    if number == 15 {
        note_dead(tally, step);
    }
    if let Some(line) = quiet::line(&step.setting, answer) {
        tally.add(line);
    }
    note_answer(tally, step, answer);
    for line in pages::lines(step, answer) {
        tally.add(line);
    }
    for line in bytes::lines(&step.setting, answer) {
        tally.add(line);
    }
    // Refusals 12 and 13 leave a table too.
    if [0, 12, 13].contains(&number) {
        note_past_need(tally, step, number);
        for line in filled::lines(&second.setting) {
            tally.add(line);
        }
    }
}

pub fn note_number(tally: &mut Tally, setting: &Setting, answer: &Answer) {
    let (service, number) = (setting.service(), answer.number);
    tally.add(format!("{service}: number {number}"));
}

pub fn note_image(tally: &mut Tally, setting: &Setting, answer: &Answer) {
    let (service, number) = (setting.service(), answer.number);
    for remark in remarks(setting.image.slice(), answer) {
        tally.add(format!("{service}: number {number}, {remark}"));
    }
}

/// Records of some lengths are counted on their own.
fn note_length(tally: &mut Tally, step: &Step, answer: &Answer) {
    let service = step.setting.service();
    let n = step.setting.events.slice().len();
    let whole = step
        .setting
        .call
        .event_bytes()
        .is_none_or(|bytes| bytes % 2 == 0);
    let notable = whole && (n == MOST_EVENTS + 1 || LENGTHS.contains(&n));
    if service != "test" && notable && [0, 8].contains(&answer.number) {
        tally.add(format!("{service}: {n} events, number {}", answer.number));
    }
    if service == "check" && notable && answer.rest[0] == 1 {
        tally.add(format!("check: {n} events, yes"));
    }
}

/// What the call would be refused for besides dead symbols, or else what it is about.
fn note_dead(tally: &mut Tally, step: &Step) {
    let service = step.setting.service();
    match later_refusal(&step.setting) {
        Some(later) => tally.add(format!("{service}: number 15 before {later}")),
        None if step.note.is_empty() => (),
        None => tally.add(format!("{service}: number 15, {}", step.note)),
    }
}

/// A table that has words which must be kept.
fn note_past_need(tally: &mut Tally, step: &Step, number: u8) {
    let table = step.setting.call.table_shown();
    if table.is_some_and(|table| table.len() > table_words(&step.setting)) {
        let service = step.setting.service();
        tally.add(format!("{service}: number {number}, table past the need"));
    }
}

fn note_answer(tally: &mut Tally, step: &Step, answer: &Answer) {
    let Answer { number, rest, .. } = answer;
    let service = step.setting.service();
    match step.setting.call {
        Call::Reading { k, .. } | Call::ReadingBytes { k, .. }
            if k >= 4_294_967_294 && [0, 12, 13].contains(number) =>
        {
            tally.add(format!("{service}: k = {k}, number {number}"));
        }
        Call::Judge { .. } | Call::JudgeBytes { .. } if *number == 0 => {
            let verdict = ["not admitted", "admitted"][rest[0] as usize];
            tally.add(format!("{service}: {verdict}"));
            if rest[2] == MOST_FIRINGS {
                tally.add(format!("{service}: the most firings"));
            }
        }
        Call::Count { .. } | Call::CountBytes { .. } if *number == 0 => {
            let total = match rest[0] {
                0 => "0",
                4_294_967_295 => "4294967295",
                _ => "between",
            };
            tally.add(format!("{service}: total {total}"));
        }
        Call::Check { .. } if *number == 0 => {
            let verdict = ["no", "yes"][rest[0] as usize];
            tally.add(format!("check: {verdict}: {}", step.note));
        }
        Call::Number { .. } if [0, 12, 13].contains(number) => {
            tally.add(format!("number: number {number}: {}", step.note));
            match rest[0] {
                4_294_967_294 => tally.add("number: reading 4294967294"),
                0x8000_0000.. => tally.add("number: reading of 32 bits"),
                _ => (),
            }
        }
        _ => (),
    }
}
