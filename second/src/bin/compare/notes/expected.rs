//! What must occur in many cases if they are what they are meant to be.

use crate::draw::changes::CHANGES;
use crate::draw::damage::FAULTS;
use crate::draw::kinds::KINDS;
use crate::draw::lengths::LENGTHS;
use crate::draw::numbers::LATE;
use crate::notes::layouts::OF_LAYOUTS;
use crate::notes::remarks::names_with_answers;
use crate::notes::rules::OF_RULES;
use crate::notes::services::{NUMBERS, OF_A_RECORD};
use crate::notes::symbols::OF_SYMBOLS;
use crate::notes::{bytes, filled, pages, quiet, sessions};
use second::drawn::SORTS;

const ROOMS: [&str; 4] = ["chart", "table", "script room", "page room"];

const FITS: [&str; 5] = ["empty", "one word short", "shorter", "exact", "longer"];

/// Services that answer alike, on words and on bytes, and what each must have answered.
const ANSWERS: [([&str; 2], &[&str]); 3] = [
    (
        ["judge", "judge-bytes"],
        &["not admitted", "admitted", "the most firings"],
    ),
    (
        ["count", "count-bytes"],
        &["total 0", "total between", "total 4294967295"],
    ),
    (
        ["reading", "reading-bytes"],
        &[
            "k = 4294967294, number 0",
            "k = 4294967294, number 12",
            "k = 4294967295, number 12",
            "k = 4294967295, number 13",
            "number 15, k of a reading",
            "number 15, k past the count",
            "number 15, k past all numbers",
        ],
    ),
];

const OTHERS: [&str; 39] = [
    "check: yes: a reading",
    "check: yes: two readings spliced",
    "check: yes: of another record",
    "check: no: of another record",
    "check: no: of another symbol",
    "check: no: random words",
    "check: number 15, a reading",
    "number: reading 4294967294",
    "number: reading of 32 bits",
    "number: number 0: each of few",
    "number: number 0: a reading",
    "number: number 0: a reading, the last numbered",
    "number: number 0: two readings spliced",
    "number: number 0: of another record",
    "number: number 12: of another record",
    "number: number 12: of another symbol",
    "number: number 12: random words",
    "number: number 13: a reading, the first not numbered",
    "number: number 13: a reading, not numbered",
    "number: number 13: a reading, not numbered in 64 bits",
    "number: number 0, table past the need",
    "number: number 12, table past the need",
    "number: number 13, table past the need",
    "number: number 15, a reading",
    "number: told again",
    "reading: told again",
    "page: told again",
    "page: number 0, table past the need",
    "page: number 12, table past the need",
    "page: number 13, table past the need",
    "page: number 15, several scripts",
    "page: number 15, k past the count",
    "page: number 15, k past all numbers",
    "true total: 4294967294",
    "true total: 4294967295",
    "true total: 4294967296",
    "true total: 64 bits or more",
    "every flag",
    "largest image and record",
];

/// Every line that the tally must have.
pub fn expected() -> Vec<String> {
    let mut all = of_services();
    all.extend(of_lengths());
    all.extend(of_rooms());
    all.extend(of_drawing());
    all.extend(pages::expected());
    all.extend(quiet::expected());
    all.extend(filled::expected());
    all.extend(sessions::expected());
    all.extend(bytes::expected());
    all.extend(of_answers());
    all.extend(OTHERS.map(str::to_string));
    all
}

/// Every answer of each service, and what is told apart among images with the same.
fn of_services() -> Vec<String> {
    let mut all = Vec::new();
    let remarks = [
        names_with_answers(&OF_LAYOUTS),
        names_with_answers(&OF_RULES),
        names_with_answers(&OF_SYMBOLS),
    ]
    .concat();
    for (service, numbers) in NUMBERS {
        all.extend(numbers.iter().map(|n| format!("{service}: number {n}")));
        for (remark, numbers) in &remarks {
            let lines = numbers.iter();
            all.extend(lines.map(|n| format!("{service}: number {n}, {remark}")));
        }
        all.extend(SORTS.map(|(sort, ..)| format!("{service}: number 15, {sort}")));
        let later = numbers.iter().filter(|n| [8, 9, 10, 11, 14].contains(*n));
        all.extend(later.map(|n| format!("{service}: number 15 before {n}")));
        all.extend([0, 1].map(|flag| format!("{service}: twin with flag {flag}")));
    }
    all
}

fn of_answers() -> Vec<String> {
    let mut all = Vec::new();
    for (services, answers) in ANSWERS {
        for service in services {
            all.extend(answers.iter().map(|what| format!("{service}: {what}")));
        }
    }
    all
}

fn of_lengths() -> Vec<String> {
    let mut all = Vec::new();
    for service in OF_A_RECORD {
        all.extend(LENGTHS.map(|n| format!("{service}: {n} events, number 0")));
        all.push(format!("{service}: 97 events, number 8"));
    }
    all.extend(LENGTHS.map(|n| format!("check: {n} events, yes")));
    all
}

fn of_rooms() -> Vec<String> {
    let mut all = Vec::new();
    for room in ROOMS {
        all.extend(FITS.map(|fit| format!("{room}: {fit}")));
        all.extend(FITS.map(|fit| format!("{room} for 96 events: {fit}")));
    }
    all
}

/// Every way to draw an image, to damage it and to spoil a script.
fn of_drawing() -> Vec<String> {
    let mut all = Vec::new();
    all.extend(KINDS.map(|(name, _, meant, _)| format!("kind: {name}, number {meant}")));
    all.extend(FAULTS.map(|(name, _)| format!("damage: {name}")));
    for (name, _) in CHANGES {
        for late in ["", LATE] {
            all.push(format!("check: no: {name}{late}"));
            all.push(format!("number: number 12: {name}{late}"));
        }
    }
    all
}
