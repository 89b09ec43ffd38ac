//! Words to check and to number: scripts of readings as they are or spoiled, and others.

use crate::draw::changes::CHANGES;
use crate::draw::lengths::LONGEST;
use crate::draw::numbers;
use crate::draw::readings::any_reading;
use second::random::Random;
use second::readings::{cut, Readings};
use second::trees::script_words;

/// Words, and the record that they are offered with.
pub struct Script {
    pub words: Vec<u16>,
    pub events: Vec<u16>,
    /// What they are, for the tally.
    pub what: String,
}

fn script(words: Vec<u16>, events: &[u16], what: impl Into<String>) -> Script {
    Script {
        words,
        events: events.to_vec(),
        what: what.into(),
    }
}

/// A script drawn for the record; random words if it has none of the kind drawn.
pub fn any_script(random: &mut Random, readings: &Readings) -> Script {
    let kind = random.below(CHANGES.len() + 3);
    let found = match kind.checked_sub(CHANGES.len()) {
        None => changed(random, readings, kind),
        Some(0) => a_reading(random, readings),
        Some(1) => of_another_record(random, readings),
        Some(_) => of_another_symbol(random, readings),
    };
    found.unwrap_or_else(|| random_words(random, readings.events))
}

/// The script of any reading as it is.
pub fn a_reading(random: &mut Random, readings: &Readings) -> Option<Script> {
    let (words, number) = any_with_number(random, readings)?;
    let what = format!("a reading{}", numbers::place(number));
    Some(script(words, readings.events, what))
}

fn changed(random: &mut Random, readings: &Readings, kind: usize) -> Option<Script> {
    let (mut words, number) = any_with_number(random, readings)?;
    let (name, change) = CHANGES[kind];
    change(random, readings, &mut words);
    let what = format!("{name}{}", numbers::lateness(number));
    Some(script(words, readings.events, what))
}

fn of_another_record(random: &mut Random, readings: &Readings) -> Option<Script> {
    let (words, _) = any_with_number(random, readings)?;
    let events = another_record(random, readings.events);
    Some(script(words, &events, "of another record"))
}

/// The words and the number of any reading of a record that has one with words; of the empty script
/// nothing can be changed.
fn any_with_number(random: &mut Random, readings: &Readings) -> Option<(Vec<u16>, u64)> {
    if readings.total() == 0 || readings.events.is_empty() {
        return None;
    }
    let words = any_reading(random, readings);
    let number = readings.number(&words).expect("a reading");
    Some((words, number))
}

/// The script of a derivation of the whole record from a symbol that is not the start.
fn of_another_symbol(random: &mut Random, readings: &Readings) -> Option<Script> {
    let n = readings.events.len();
    let count = |a| readings.derivations(a, 0, n);
    let symbols = 1..readings.grammar.symbols;
    let others: Vec<_> = symbols.filter(|&a| count(a) > 0).collect();
    if others.is_empty() {
        return None;
    }
    let a = random.one_of(&others);
    let number = random.below(cut(count(a)) as usize);
    let words = readings.unranked(a, 0, n, number as u64);
    Some(script(words, readings.events, "of another symbol"))
}

/// The record with one event changed, perhaps to one that the rules know, or an empty record.
fn another_record(random: &mut Random, events: &[u16]) -> Vec<u16> {
    if random.once_in(8) {
        return Vec::new();
    }
    let mut events = events.to_vec();
    let place = random.below(events.len());
    events[place] = random.one_of(&events).wrapping_add(random.below(2) as u16);
    events
}

/// Small words, about as many as a script has, or as one of the longest records has.
pub fn random_words(random: &mut Random, events: &[u16]) -> Script {
    let need = script_words(events.len().min(LONGEST));
    let length = random.one_of(&[need, need, need, need + 1, 2]);
    let words = (0..length).map(|_| random.below(6) as u16).collect();
    script(words, events, "random words")
}
