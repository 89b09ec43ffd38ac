//! What is told of calls on bytes: how many bytes there are, and where they stand.

use crate::calls::call::{CHART, EVENTS, SCRIPT, TABLE};
use crate::calls::setting::Setting;
use crate::calls::side::Answer;
use crate::draw::bytes::AROUND_LIMIT;
use crate::notes::facts::{facts_about, Fact};
use crate::notes::needs::{of_the_events, past_the_image, words_to_show};
use crate::notes::services::numbers_of;

/// Each service, and what it is lent beside the events.
const SERVICES: [(&str, &[&str]); 3] = [
    ("judge-bytes", &[CHART]),
    ("count-bytes", &[TABLE]),
    ("reading-bytes", &[TABLE, SCRIPT]),
];

/// The refusal where a part is too short, and of the events where they are odd.
fn refusal_of(part: &str) -> u8 {
    match part {
        CHART => 9,
        TABLE => 10,
        SCRIPT => 11,
        _ => 14,
    }
}

/// Where the bytes stand past a multiple of eight.
const OFFSETS: usize = 8;

/// Bytes that are lent for words.
struct Room {
    len: usize,
    /// How many words are needed, and the bytes of each.
    words: usize,
    size: usize,
}

impl Room {
    fn need(&self) -> usize {
        self.words * self.size
    }

    /// The bytes at the end that show no word.
    fn rest(&self) -> usize {
        self.len % self.size
    }

    fn longer_by_words(&self) -> bool {
        self.len >= self.need() + self.size
    }
}

const OF_LONG_ROOMS: [Fact<Room>; 6] = [
    ("exact", |r| r.len == r.need()),
    ("one byte more", |r| r.len == r.need() + 1),
    ("a rest more", |r| r.rest() > 0 && !r.longer_by_words()),
    ("longer by words", |r| r.rest() == 0 && r.longer_by_words()),
    ("longer by words and a rest", |r| {
        r.rest() > 0 && r.longer_by_words()
    }),
    ("odd", |r| r.len % 2 == 1),
];

const OF_SHORT_ROOMS: [Fact<Room>; 7] = [
    ("empty", |r| r.len == 0),
    ("one byte short", |r| r.len + 1 == r.need()),
    ("one word short", |r| r.len + r.size == r.need()),
    ("enough if a rest were a word", |r| {
        r.len + r.size > r.need()
    }),
    ("as many bytes as words", |r| r.len == r.words),
    ("a rest", |r| r.rest() > 0),
    ("odd", |r| r.len % 2 == 1),
];

/// The tally's lines for a call on bytes.
pub fn lines(setting: &Setting, answer: &Answer) -> Vec<String> {
    let Some(event_bytes) = setting.call.event_bytes() else {
        return Vec::new();
    };
    let number = answer.number;
    let mut all = rooms(setting, number);
    if [0, 8, 14].contains(&number) && (event_bytes == 1 || AROUND_LIMIT.contains(&event_bytes)) {
        all.push(events_of(event_bytes));
    }
    let later = match number {
        1..=7 => of_the_events(setting),
        8..=11 | 14 => past_the_image(setting).split_off(1),
        _ => Vec::new(),
    };
    all.extend(later.into_iter().map(before));
    if number == 0 {
        let parts = setting.call.bytes().into_iter();
        all.extend(parts.map(|(part, bytes)| at_offset(part, bytes.offset())));
    }
    let told = |what: String| told(setting.service(), number, &what);
    all.into_iter().map(told).collect()
}

/// What is told of the parts that are long enough, or of the one that isn't.
fn rooms(setting: &Setting, number: u8) -> Vec<String> {
    let mut all = Vec::new();
    for (part, bytes) in setting.call.bytes() {
        let facts = match number {
            0 | 12 | 13 => &OF_LONG_ROOMS[..],
            9..=11 if number == refusal_of(part) => &OF_SHORT_ROOMS[..],
            _ => continue,
        };
        if let Some((words @ 1.., size)) = words_to_show(setting, part) {
            let len = bytes.slice().len();
            let room = Room { len, words, size };
            all.extend(facts_about(facts, &room).map(|fact| of_room(part, fact)));
        }
    }
    all
}

fn told(service: &str, number: u8, what: &str) -> String {
    format!("{service}: number {number}{what}")
}

fn events_of(bytes: usize) -> String {
    format!(", events of {bytes} bytes")
}

fn before(later: u8) -> String {
    format!(" before {later}")
}

fn of_room(part: &str, fact: &str) -> String {
    format!(", {part} {fact}")
}

fn at_offset(part: &str, offset: usize) -> String {
    format!(", {part} at offset {offset}")
}

/// What is told of a call on bytes that was made on words too.
pub fn in_words(service: &str, number: u8) -> String {
    told(service, number, ", in words too")
}

/// Every line that the tally must have.
pub fn expected() -> Vec<String> {
    let lines = SERVICES
        .iter()
        .map(|(service, parts)| expected_of(service, parts));
    lines.collect::<Vec<_>>().concat()
}

fn expected_of(service: &str, parts: &[&str]) -> Vec<String> {
    let mut all = expected_of_events();
    for part in parts {
        all.extend(expected_of_part(service, part));
    }
    if parts == [TABLE, SCRIPT] {
        all.push((10, before(11)));
    }
    for part in [&[EVENTS], parts].concat() {
        all.extend((0..OFFSETS).map(|offset| (0, at_offset(part, offset))));
    }
    let lines = all
        .iter()
        .map(|(number, what)| told(service, *number, what));
    let on_words = numbers_of(service).iter().filter(|&&number| number != 14);
    lines
        .chain(on_words.map(|number| in_words(service, *number)))
        .collect()
}

/// Numbers, and what is told of them.
type Lines = Vec<(u8, String)>;

fn expected_of_events() -> Lines {
    let lengths = [(1, 14), (191, 14), (192, 0), (193, 8), (194, 8)];
    let mut all: Lines = lengths
        .map(|(bytes, number)| (number, events_of(bytes)))
        .into();
    for image in 1..=7 {
        all.extend([8, 14].map(|later| (image, before(later))));
    }
    all.push((8, before(14)));
    all
}

fn expected_of_part(service: &str, part: &str) -> Lines {
    let refusal = refusal_of(part);
    let mut all: Lines = [8, 14].map(|number| (number, before(refusal))).into();
    let short = OF_SHORT_ROOMS.map(|(fact, _)| of_room(part, fact));
    all.extend(short.map(|what| (refusal, what)));
    for number in [0, 12, 13] {
        if numbers_of(service).contains(&number) {
            let long = OF_LONG_ROOMS.map(|(fact, _)| of_room(part, fact));
            all.extend(long.map(|what| (number, what)));
        }
    }
    all
}
