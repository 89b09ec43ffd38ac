//! What is told of pages, by what was asked for and by the room.

use crate::calls::call::Call;
use crate::calls::setting::Step;
use crate::calls::side::Answer;
use crate::draw::pages::ROOM_FOR_THOSE;
use crate::notes::facts::{facts_about, Fact};
use second::trees::script_words;

/// A number of scripts, the words of each, and the words of the room.
struct Asked {
    m: usize,
    words: usize,
    len: usize,
}

impl Asked {
    fn all(&self) -> usize {
        self.m * self.words
    }
}

const OF_SHORT_ROOMS: [Fact<Asked>; 6] = [
    ("one word short", |a| a.len + 1 == a.all()),
    ("one script short", |a| {
        a.m > 2 && a.len + a.words == a.all()
    }),
    ("one script alone", |a| a.m > 2 && a.len == a.words),
    ("enough in 16 bits", |a| a.len >= a.all() & 0xFFFF),
    ("enough in 32 bits", |a| a.len >= a.all() & 0xFFFF_FFFF),
    ("m = 4294967295", |a| a.m == u32::MAX as usize),
];

/// The tally's lines for a page that is answered, or refused by its own numbers.
pub fn lines(step: &Step, answer: &Answer) -> Vec<String> {
    let Call::Page { m, room, .. } = &step.setting.call else {
        return Vec::new();
    };
    let asked = Asked {
        m: *m as usize,
        words: script_words(step.setting.events.slice().len()),
        len: room.slice().len(),
    };
    let mut lines = Vec::new();
    if [0, 11, 12, 13].contains(&answer.number) {
        lines.push(told(answer.number, &step.note));
    }
    if answer.number == 11 {
        let short = facts_about(&OF_SHORT_ROOMS, &asked);
        lines.extend(short.map(|what| told(11, what)));
    }
    if answer.rest[0] as usize * asked.words > 0xFFFF {
        lines.push(told(0, LONG));
    }
    lines
}

const LONG: &str = "more words than 16 bits tell";

fn told(number: u8, what: &str) -> String {
    format!("page: number {number}: {what}")
}

/// Every line that the tally must have.
pub fn expected() -> Vec<String> {
    let mut all = vec!["every page of few".to_string(), told(0, LONG)];
    all.extend(OF_SHORT_ROOMS.map(|(what, _)| told(11, what)));
    all.extend(["m = 0", "one script", "several scripts"].map(|what| told(0, what)));
    for end_of in ["the readings", "the numbers"] {
        let past = [
            format!("one past the end of {end_of}"),
            format!("past the end of {end_of} and 32 bits"),
        ];
        all.push(told(0, &format!("up to the end of {end_of}")));
        all.extend(past.each_ref().map(|what| told(0, what)));
        all.extend(past.map(|what| told(11, &(what + ROOM_FOR_THOSE))));
    }
    all.push(told(0, "past the end of the readings"));
    for m_0 in ["", ", m = 0"] {
        all.push(told(12, &format!("k past the count{m_0}")));
        all.push(told(13, &format!("k past all numbers{m_0}")));
    }
    all
}
