//! Images for the tests and the comparisons.

use crate::image::{decode, header_bytes, Grammar};

/// A version 1 image of these rules; each kind is put in order here, and of equal rules one is kept.
pub fn image(symbols: u8, event_rules: &[(u8, u16)], pair_rules: &[(u8, u8, u8)]) -> Vec<u8> {
    let (mut event_rules, mut pair_rules) = (event_rules.to_vec(), pair_rules.to_vec());
    event_rules.sort();
    event_rules.dedup();
    pair_rules.sort();
    pair_rules.dedup();
    let mut image = b"ESG\x01\x00".to_vec();
    image.push(symbols);
    image.extend((event_rules.len() as u16).to_le_bytes());
    image.extend((pair_rules.len() as u16).to_le_bytes());
    for (symbol, event) in event_rules {
        image.push(symbol);
        image.extend(event.to_le_bytes());
    }
    for (symbol, left, right) in pair_rules {
        image.extend([symbol, left, right]);
    }
    image
}

/// The version 1 image of a grammar's rules, put in order.
pub fn image_of(grammar: &Grammar) -> Vec<u8> {
    let event_rules = grammar.event_rules.iter();
    let event_rules: Vec<_> = event_rules.map(|r| (r.symbol as u8, r.event)).collect();
    let pair_rules = grammar.pair_rules.iter();
    let pair_rules: Vec<_> = pair_rules
        .map(|r| (r.symbol as u8, r.left as u8, r.right as u8))
        .collect();
    image(grammar.symbols as u8, &event_rules, &pair_rules)
}

/// A version 1 image, refused or not but of ten bytes or more, in version 2 with this flag.
pub fn version_2(image: &[u8], flag: u8) -> Vec<u8> {
    [&image[..3], &[2, 0], &image[5..10], &[flag], &image[10..]].concat()
}

/// The version 1 image as it is, and in version 2 with both flags.
pub fn in_every_way(image: &[u8]) -> [Vec<u8>; 3] {
    [image.to_vec(), version_2(image, 0), version_2(image, 1)]
}

/// CHAIN: as many readings as there are ways to put brackets.
pub fn chain() -> Vec<u8> {
    image(1, &[(0, 7)], &[(0, 0, 0)])
}

/// The rules of STOP: 0 day, 1 stop, 2 press, 3 tail, 4 relay, 5 reset.
pub const STOP_EVENTS: [(u8, u16); 3] = [(2, 1), (4, 2), (5, 3)];
pub const STOP_PAIRS: [(u8, u8, u8); 4] = [(0, 1, 0), (0, 2, 3), (1, 2, 3), (3, 4, 5)];

pub fn stop() -> Vec<u8> {
    image(6, &STOP_EVENTS, &STOP_PAIRS)
}

/// STOP with one symbol misspelt: the tail is a relay and symbol 6, which nothing is said of. No
/// tail, stop or day can be finished any more, and nothing leads to a reset.
pub fn misspelt() -> Vec<u8> {
    let mut pair_rules = STOP_PAIRS;
    pair_rules[3] = (3, 4, 6);
    image(7, &STOP_EVENTS, &pair_rules)
}

/// So many symbols, and few rules for as many: every symbol turns into 7, and the first into itself
/// and any. With one symbol it is CHAIN.
pub fn wide(symbols: u8) -> Vec<u8> {
    let event_rules: Vec<_> = (0..symbols).map(|a| (a, 7)).collect();
    let pair_rules: Vec<_> = (0..symbols).map(|a| (0, 0, a)).collect();
    image(symbols, &event_rules, &pair_rules)
}

/// So many symbols in the order of their numbers, and in the other order but 0 first.
pub fn orders(symbols: u8) -> [Vec<u8>; 2] {
    let rising = (0..symbols).collect();
    let falling = [0].into_iter().chain((1..symbols).rev()).collect();
    [rising, falling]
}

/// Symbols one below the other, in any order that begins with 0: each turns into the next twice, or
/// into the next and the one at `leaf`, and the last into the first. Only the one at `leaf` turns
/// into an event, 7. So no symbol is dead, though all others derive something by the next alone.
pub fn ring(order: &[u8], leaf: usize, next_twice: bool) -> Vec<u8> {
    let followed = order.iter().zip(order.iter().cycle().skip(1));
    let pair_rules: Vec<_> = followed
        .map(|(&a, &next)| (a, next, if next_twice { next } else { order[leaf] }))
        .collect();
    image(order.len() as u8, &[(order[leaf], 7)], &pair_rules)
}

/// As many symbols and rules as there may be. Every symbol turns into each of the events 0 to 7 and
/// into four pairs, and so it is derivable over any stretch of these events.
pub fn largest() -> Vec<u8> {
    let event_rules: Vec<_> = (0..512).map(|r| ((r / 8) as u8, r % 8)).collect();
    let pair_rules: Vec<_> = (0..=255).map(|r| (r / 4, r % 64, r / 8 + 7)).collect();
    image(64, &event_rules, &pair_rules)
}

/// As large, but nothing leads to the last symbol, except from itself.
pub fn largest_unreached() -> Vec<u8> {
    let mut grammar = decode(&largest()).expect("an accepted image");
    for rule in &mut grammar.pair_rules {
        if rule.symbol != 63 && rule.left == 63 {
            rule.left = 0;
        }
    }
    image_of(&grammar)
}

/// As large, but the last symbol turns into nothing that it isn't a part of.
pub fn largest_barren() -> Vec<u8> {
    let mut grammar = decode(&largest()).expect("an accepted image");
    for rule in grammar.event_rules.iter_mut().filter(|r| r.symbol == 63) {
        rule.symbol = 0;
        rule.event += 8;
    }
    for rule in grammar.pair_rules.iter_mut().filter(|r| r.symbol == 63) {
        rule.right = rule.left;
        rule.left = 63;
    }
    image_of(&grammar)
}

/// BINARY: a record of zeros and ones has as many readings as the number that it writes, so that
/// any total can be had. One more digit makes the number twice as large (0 = 0 1 and 0 = 0 2) and
/// one larger if the digit is one (0 = 3 4); 1 and 2 turn into any digit, 4 into one, and 3 has one
/// reading over any digits.
pub fn binary() -> Vec<u8> {
    let any_digit = [1, 2, 3].into_iter().flat_map(|a| [(a, 0), (a, 1)]);
    let event_rules: Vec<_> = any_digit.chain([(0, 1), (4, 1)]).collect();
    let pair_rules = [(0, 0, 1), (0, 0, 2), (0, 3, 4), (3, 3, 1)];
    image(5, &event_rules, &pair_rules)
}

/// The record with which BINARY has `total` readings, no leading zero.
pub fn digits(total: u64) -> Vec<u16> {
    let length = 64 - total.leading_zeros();
    let digit = |place: u32| (total >> place & 1) as u16;
    (0..length).rev().map(digit).collect()
}

/// The image with rules at fault: first each of `repeated`, none of them the first of its kind, is
/// made equal to the rule before it, then each of `unknown` gets N for its symbol.
pub fn faulty(mut image: Vec<u8>, unknown: &[usize], repeated: &[usize]) -> Vec<u8> {
    let header = header_bytes(&image);
    for rule in repeated {
        let start = header + 3 * rule;
        image.copy_within(start - 3..start, start);
    }
    for rule in unknown {
        image[header + 3 * rule] = image[5];
    }
    image
}
