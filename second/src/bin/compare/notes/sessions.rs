//! What is told apart among calls with sessions: where those come from and how many events they have.

use crate::calls::call::Call;
use crate::calls::called::Called;
use crate::calls::setting::Setting;
use crate::draw::sessions::{LARGE, WORDS};
use crate::draw::symbols::symbols_shown;
use crate::notes::columns::{Column, OF_ADDS, OF_STRANGE_ADDS, OF_STRANGE_TAKE_BACKS};
use crate::notes::events::{but_for_bit, but_for_bits, EVENT_BITS};
use crate::notes::facts::{facts_about, names, Fact};
use second::image::decode;
use second::session::MOST_ADDED;

/// Where a session comes from.
pub type Origin = &'static str;
pub const GROWN: Origin = "grown";
pub const STRANGE: Origin = "strange";

/// The tally's lines for a call with a session.
pub fn lines(origin: Origin, lent: &Setting, ended: &Called) -> Vec<String> {
    let (service, number) = (lent.service(), ended.answer.number);
    let [before, after] = [lent, &ended.setting].map(|setting| setting.session().session());
    let k = match (&lent.call, number) {
        (Call::Begin { .. }, _) => return Vec::new(),
        (Call::Add { .. }, 0) => after.count,
        (_, 0) => before.count,
        _ => return vec![refused(origin, service, number, before.count)],
    };
    let column = Column {
        k: k as usize,
        before,
        after,
        symbols: symbols_shown(lent.image.slice()),
        firings: ended.answer.rest[1],
    };
    let mut lines = vec![event(k)];
    let facts = facts_of(origin, &lent.call);
    lines.extend(facts_about(&facts, &column).map(str::to_string));
    if let (STRANGE, 0, Call::Add { event, .. }) = (origin, column.firings, &lent.call) {
        let grammar = decode(lent.image.slice()).expect("an accepted image");
        lines.extend(but_for_bits(&grammar, &[*event]));
    }
    let told = |what: &String| told(origin, service, what);
    lines.iter().map(told).collect()
}

fn facts_of(origin: Origin, call: &Call) -> Vec<Fact<Column>> {
    match (call, origin) {
        (Call::Add { .. }, STRANGE) => [&OF_ADDS[..], &OF_STRANGE_ADDS].concat(),
        (Call::Add { .. }, _) => OF_ADDS.to_vec(),
        (_, STRANGE) => OF_STRANGE_TAKE_BACKS.to_vec(),
        _ => Vec::new(),
    }
}

/// What is told of a call that is refused at so many events.
fn refused(origin: Origin, service: &str, number: u8, count: u64) -> String {
    match number {
        17 | 18 => told(origin, service, &at(number, count)),
        _ if count >= MOST_ADDED => told(origin, service, &before_17(number)),
        _ => told(origin, service, &format!("number {number}")),
    }
}

fn told(origin: Origin, service: &str, what: &str) -> String {
    format!("{service}, {origin}: {what}")
}

fn event(k: u64) -> String {
    format!("event {k}")
}

fn at(number: u8, count: u64) -> String {
    match count {
        34..=40 => format!("number {number} at 34 to 40"),
        _ if count <= 33 || LARGE.contains(&count) => format!("number {number} at {count}"),
        _ => format!("number {number} at another"),
    }
}

fn before_17(number: u8) -> String {
    format!("number {number} before 17")
}

/// Of a session that is judged afresh after so many events.
pub fn fresh(events: usize) -> String {
    format!("judge, grown: afresh after {events}")
}

/// What is told of a call with a session whose words were drawn like this.
pub fn drawn(service: &str, name: &str, number: u8) -> String {
    format!("{service}, {name}: number {number}")
}

/// Every line that the tally must have.
pub fn expected() -> Vec<String> {
    let mut all = of_words();
    all.push("begin: number 0".to_string());
    let events = (1..=MOST_ADDED).map(event);
    for origin in [GROWN, STRANGE] {
        let what = events.clone().chain(names(&OF_ADDS));
        all.extend(what.map(|what| told(origin, "add", &what)));
        all.extend(events.clone().map(|what| told(origin, "take-back", &what)));
        all.push(told(origin, "add", &at(17, 32)));
        all.push(told(origin, "take-back", &at(18, 0)));
    }
    all.extend((1..=32).map(fresh));
    let numbers = [1, 2, 3, 4, 5, 6, 7, 15];
    all.extend(numbers.map(|number| told(GROWN, "add", &format!("number {number}"))));
    all.extend(numbers.map(|number| told(STRANGE, "add", &before_17(number))));
    for count in [33, 34, 41].into_iter().chain(LARGE) {
        all.push(told(STRANGE, "add", &at(17, count)));
        all.push(told(STRANGE, "take-back", &at(18, count)));
    }
    let what = names(&OF_STRANGE_ADDS).chain(EVENT_BITS.map(but_for_bit));
    all.extend(what.map(|what| told(STRANGE, "add", &what)));
    let what = names(&OF_STRANGE_TAKE_BACKS);
    all.extend(what.map(|what| told(STRANGE, "take-back", &what)));
    all
}

/// Those of how words are drawn.
fn of_words() -> Vec<String> {
    let mut all = Vec::new();
    for (name, _) in WORDS {
        all.extend([0, 1, 2, 3, 4, 5, 6, 7, 15, 17].map(|number| drawn("add", name, number)));
        all.extend([0, 18].map(|number| drawn("take-back", name, number)));
    }
    all
}
