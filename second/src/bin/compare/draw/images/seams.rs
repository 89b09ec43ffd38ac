//! Images and records that fall into parts in one way only, so that numbers of readings are products.

use crate::draw::records::Drawn;
use second::drawn::{pair_rule, with_symbol};
use second::examples::{binary, digits, image_of};
use second::image::{decode, Grammar};
use second::random::Random;

/// BINARY several times, each over events of its own: as many readings as the product of the numbers
/// that the parts write. Sometimes others come after them, with one part by BINARY's symbol 3.
pub fn seams_case(random: &mut Random) -> Drawn {
    let factors = any_factors(random);
    let (mut grammar, mut events) = over_own_events(0, factors[0]);
    for (own, &factor) in factors.iter().enumerate().skip(1) {
        let (other, other_events) = over_own_events(own as u16, factor);
        grammar = with_symbol(grammar, 0);
        let start = append(&mut grammar, other);
        let other_first = random.once_in(3);
        let mut join = |other| {
            let parts = if other_first { [other, 1] } else { [1, other] };
            grammar.pair_rules.push(pair_rule(0, parts));
        };
        join(start);
        if random.once_in(3) {
            join(start + 3);
        }
        events = match other_first {
            true => [other_events, events].concat(),
            false => [events, other_events].concat(),
        };
    }
    (image_of(&grammar), events)
}

/// Powers of two, any, or such that their product is near the number of numbers.
fn any_factors(random: &mut Random) -> Vec<u64> {
    let any = |random: &mut Random| 1 + (random.word() >> random.within(33, 63));
    match random.below(4) {
        0 => vec![1 << random.within(1, 31), 1 << random.within(1, 31)],
        1 => [0; 3].map(|_| 1 << random.within(14, 31)).into(),
        2 => (0..random.within(2, 3)).map(|_| any(random)).collect(),
        _ => {
            // The number of numbers is a product of some of these.
            let factor = random.one_of(&[3, 5, 17, 257, 65_537, 65_535, 16_711_935]);
            let mut factors = [factor, 4_294_967_295 / factor + random.below(2) as u64];
            random.shuffle(&mut factors);
            factors.into()
        }
    }
}

/// BINARY over two events that no other has, and the record with so many readings.
fn over_own_events(own: u16, total: u64) -> (Grammar, Vec<u16>) {
    let mut grammar = decode(&binary()).expect("an accepted image");
    for rule in &mut grammar.event_rules {
        rule.event += 2 * own;
    }
    let events = digits(total).into_iter().map(|digit| digit + 2 * own);
    (grammar, events.collect())
}

/// The rules of another grammar, whose symbols are numbered on: its symbol 0 is given back.
fn append(grammar: &mut Grammar, mut other: Grammar) -> usize {
    let start = grammar.symbols;
    for rule in &mut other.event_rules {
        rule.symbol += start;
    }
    for rule in &mut other.pair_rules {
        *rule = pair_rule(rule.symbol + start, [rule.left + start, rule.right + start]);
    }
    grammar.symbols += other.symbols;
    grammar.event_rules.extend(other.event_rules);
    grammar.pair_rules.extend(other.pair_rules);
    start
}
