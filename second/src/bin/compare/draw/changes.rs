//! How the script of a reading is spoiled. Some changes leave it a reading, and some change nothing by
//! chance.

use crate::draw::readings::any_reading;
use second::image::EventRule;
use second::random::Random;
use second::readings::Readings;

/// A name, and what is done to a reading's script.
type Change = (&'static str, fn(&mut Random, &Readings, &mut Vec<u16>));

pub const CHANGES: [Change; 13] = [
    ("a word one up or down", |random, _, script| {
        let (place, step) = (random.below(script.len()), random.one_of(&[1, u16::MAX]));
        script[place] = script[place].wrapping_add(step);
    }),
    ("a word but for one bit", |random, _, script| {
        let place = random.below(script.len());
        script[place] ^= 1 << random.below(16);
    }),
    ("a word as elsewhere", |random, _, script| {
        let place = random.below(script.len());
        script[place] = random.one_of(script);
    }),
    ("a word any number", |random, _, script| {
        let place = random.below(script.len());
        script[place] = random.word() as u16;
    }),
    ("two words swapped", |random, _, script| {
        let (a, b) = (random.below(script.len()), random.below(script.len()));
        script.swap(a, b);
    }),
    ("two parts swapped", |random, readings, script| {
        swap_parts(random, readings, script);
    }),
    ("a leaf of the same event", |random, readings, script| {
        another_leaf(random, readings, script, |a, b| a.event == b.event);
    }),
    ("a leaf of the same symbol", |random, readings, script| {
        another_leaf(random, readings, script, |a, b| a.symbol == b.symbol);
    }),
    ("two readings spliced", |random, readings, script| {
        let other = any_reading(random, readings);
        let place = random.below(script.len());
        script[place..].copy_from_slice(&other[place..]);
    }),
    ("cut", |random, _, script| {
        let words = script.len().saturating_sub(random.within(1, 4));
        script.truncate(words);
    }),
    ("grown", |random, _, script| {
        let words = random.within(1, 4);
        grow(script, words);
    }),
    ("grown as 8 or 16 bits don't show", |random, _, script| {
        // Mostly the fewer, since many take long.
        let words = match random.below(8) {
            0 => 65_536,
            _ => 256,
        };
        grow(script, words);
    }),
    ("empty", |_, _, script| script.clear()),
];

/// By so many words, of which the first are as the script's are.
fn grow(script: &mut Vec<u16>, words: usize) {
    let grown = script.iter().cycle().take(script.len() + words);
    *script = grown.copied().collect();
}

/// Where the nodes start that are leaves, or those that aren't.
fn nodes(readings: &Readings, script: &[u16], leaves: bool) -> Vec<usize> {
    let all = (0..script.len()).step_by(2);
    all.filter(|&at| is_leaf(readings, script, at) == leaves)
        .collect()
}

fn is_leaf(readings: &Readings, script: &[u16], at: usize) -> bool {
    usize::from(script[at]) < readings.grammar.event_rules.len()
}

/// The left and the right part of a node, if there is one with parts.
fn swap_parts(random: &mut Random, readings: &Readings, script: &mut [u16]) {
    let pairs = nodes(readings, script, false);
    if !pairs.is_empty() {
        let left = random.one_of(&pairs) + 2;
        let right = end_of_part(readings, script, left);
        let end = end_of_part(readings, script, right);
        script[left..end].rotate_left(right - left);
    }
}

/// Where the part ends that starts here.
fn end_of_part(readings: &Readings, script: &[u16], start: usize) -> usize {
    let (mut at, mut open) = (start, 1);
    while open > 0 {
        match is_leaf(readings, script, at) {
            true => open -= 1,
            false => open += 1,
        }
        at += 2;
    }
    at
}

/// A leaf gets another rule that is like its own, if there is one.
fn another_leaf(
    random: &mut Random,
    readings: &Readings,
    script: &mut [u16],
    alike: fn(&EventRule, &EventRule) -> bool,
) {
    let rules = &readings.grammar.event_rules;
    let leaf = random.one_of(&nodes(readings, script, true));
    let own = usize::from(script[leaf]);
    let others: Vec<_> = (0..rules.len())
        .filter(|&rule| rule != own && alike(&rules[rule], &rules[own]))
        .collect();
    if !others.is_empty() {
        script[leaf] = random.one_of(&others) as u16;
    }
}
