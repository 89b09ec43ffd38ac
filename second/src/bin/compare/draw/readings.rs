//! Scripts of readings, by their numbers and also past all numbers.

use crate::draw::numbers;
use second::derive::matches;
use second::image::PairRule;
use second::random::Random;
use second::readings::Readings;

/// By its number mostly, but also such as have none in 64 bits.
pub fn any_reading(random: &mut Random, readings: &Readings) -> Vec<u16> {
    let n = readings.events.len();
    match random.below(8) {
        0 => derivation(readings, 0, 0, n, &mut |choices| choices - 1),
        1 => derivation(readings, 0, 0, n, &mut |choices| random.below(choices)),
        2..=5 if readings.total() == u64::MAX => by_parts(random, readings),
        _ => readings.script(numbers::of_a_reading(random, readings.total())),
    }
}

/// By its number among those with the same root: any, or one that is small if 64 bits are kept of it.
fn by_parts(random: &mut Random, readings: &Readings) -> Vec<u16> {
    let n = readings.events.len();
    let (rule, j, pair) = random.one_of(&splits(readings, 0, 0, n));
    let lefts = readings.derivations(pair.left, 0, j);
    let rights = u128::from(readings.derivations(pair.right, j, n));
    let all = u128::from(lefts) * rights;
    let number = match random.below(4) {
        0 => u128::from(random.word()) << random.below(64),
        _ => (1 << 64) + u128::from(random.word() as u32),
    };
    let number = number % all;
    let left = readings.unranked(pair.left, 0, j, (number / rights) as u64);
    let right = readings.unranked(pair.right, j, n, (number % rights) as u64);
    [vec![rule as u16, j as u16], left, right].concat()
}

/// The script of a derivation of [a, i, k], of which there must be one. For each node one of so many
/// rules and splits is chosen.
fn derivation(
    readings: &Readings,
    a: usize,
    i: usize,
    k: usize,
    choose: &mut dyn FnMut(usize) -> usize,
) -> Vec<u16> {
    for (rule, event_rule) in readings.grammar.event_rules_of(a) {
        if matches(event_rule, readings.events, i, k) {
            return vec![rule as u16, k as u16];
        }
    }
    let choices = splits(readings, a, i, k);
    let (rule, j, pair) = choices[choose(choices.len())];
    let left = derivation(readings, pair.left, i, j, choose);
    let right = derivation(readings, pair.right, j, k, choose);
    [vec![rule as u16, j as u16], left, right].concat()
}

/// Every rule and split with a derivation of [a, i, k], in their order.
fn splits(readings: &Readings, a: usize, i: usize, k: usize) -> Vec<(usize, usize, PairRule)> {
    let derives = |a, i, k| readings.derivations(a, i, k) > 0;
    let mut splits = Vec::new();
    for (rule, pair) in readings.grammar.pair_rules_of(a) {
        let both = |j: &usize| derives(pair.left, i, *j) && derives(pair.right, *j, k);
        splits.extend((i + 1..k).filter(both).map(|j| (rule, j, *pair)));
    }
    splits
}
