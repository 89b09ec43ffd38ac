//! What services say of an empty record.

use crate::calls::call::Call;
use crate::calls::setting::Setting;
use crate::calls::side::Answer;
use crate::notes::services::OF_A_RECORD;
use second::image::{header_bytes, well_formed};

/// The tally's line for a call with an empty record and an image that is accepted, or refused for
/// dead symbols; nothing if it is the test, a reading or a page of numbers that are nothing special, or
/// half an event.
pub fn line(setting: &Setting, answer: &Answer) -> Option<String> {
    let image = setting.image.slice();
    let grammar = well_formed(image).ok()?;
    if !setting.events.slice().is_empty() {
        return None;
    }
    let image = match (header_bytes(image), grammar.admits_empty) {
        (10, _) => "version 1",
        (_, false) => "flag 0",
        (_, true) => "flag 1",
    };
    let said = match &setting.call {
        Call::Test => return None,
        call if call.event_bytes() == Some(1) => return None,
        _ if answer.number == 15 => "number 15".to_string(),
        Call::Judge { .. } | Call::JudgeBytes { .. } => format!("admitted {}", answer.rest[0]),
        Call::Count { .. } | Call::CountBytes { .. } => format!("total {}", answer.rest[0]),
        Call::Reading { k, .. } | Call::ReadingBytes { k, .. } if [0, 1, u32::MAX].contains(k) => {
            format!("k = {k}, number {}", answer.number)
        }
        Call::Check { script } if script.slice().is_empty() => {
            format!("empty script {}", answer.rest[0])
        }
        Call::Check { .. } => format!("other words {}", answer.rest[0]),
        Call::Number { script, .. } => {
            let words = match script.slice() {
                [] => "empty script",
                _ => "other words",
            };
            format!("{words}, number {}", answer.number)
        }
        Call::Page { k, m, .. } if [0, 1, u32::MAX].contains(m) => {
            let (k, number, written) = (first(*k), answer.number, answer.rest[0]);
            format!("{k}, m = {m}, number {number}, {written} written")
        }
        _ => return None,
    };
    Some(told(image, setting.service(), &said))
}

/// What is told of the first reading of a page.
fn first(k: u32) -> &'static str {
    match k {
        0 => "k = 0",
        _ => "k past 0",
    }
}

fn told(image: &str, service: &str, said: &str) -> String {
    format!("empty record, {image}: {service}: {said}")
}

/// Every line that the tally must have.
pub fn expected() -> Vec<String> {
    let mut all = Vec::new();
    for (image, readings) in [("version 1", 0), ("flag 0", 0), ("flag 1", 1)] {
        let reading_0 = [12, 0][readings];
        for [judge, count, reading] in [
            ["judge", "count", "reading"],
            ["judge-bytes", "count-bytes", "reading-bytes"],
        ] {
            all.extend([
                told(image, judge, &format!("admitted {readings}")),
                told(image, count, &format!("total {readings}")),
                told(image, reading, &format!("k = 0, number {reading_0}")),
                told(image, reading, "k = 1, number 12"),
                told(image, reading, "k = 4294967295, number 12"),
            ]);
        }
        all.extend([
            told(image, "check", &format!("empty script {readings}")),
            told(image, "check", "other words 0"),
            told(
                image,
                "number",
                &format!("empty script, number {reading_0}"),
            ),
            told(image, "number", "other words, number 12"),
        ]);
        for m in [0, 1, u32::MAX] {
            let written = readings.min(m as usize);
            let of_0 = format!("k = 0, m = {m}, number {reading_0}, {written} written");
            let past_0 = format!("k past 0, m = {m}, number 12, 0 written");
            all.extend([of_0, past_0].map(|said| told(image, "page", &said)));
        }
        all.extend(OF_A_RECORD.map(|service| told(image, service, "number 15")));
    }
    all
}
