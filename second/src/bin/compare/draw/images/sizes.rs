//! Images by how many symbols and rules they have, up to the limits and one past them.

use crate::draw::events::{any_events, EVENTS};
use crate::draw::lengths::long;
use crate::draw::records::{any_record, spoiled, Drawn};
use second::drawn::{any_symbol, live_image};
use second::examples::image;
use second::random::Random;
use second::services::MOST_EVENTS;
use std::collections::BTreeSet;

/// How an image of so many symbols, of these events and of about so many rules is drawn.
type DrawImage = fn(&mut Random, usize, &[u16], usize, usize) -> Vec<u8>;

/// Few symbols and events, and many of the possible rules: many readings.
pub fn dense(random: &mut Random, draw: DrawImage) -> Drawn {
    let symbols = random.within(1, 4);
    let kinds = any_events(random, 3);
    let event_rules = random.within(1, symbols * kinds.len());
    let pair_rules = random.within(1, (symbols * symbols * symbols).min(24));
    let image = draw(random, symbols, &kinds, event_rules, pair_rules);
    let most = random.one_of(&[4, 8, 12, 20]);
    let events = any_record(random, &image, &kinds, most);
    (image, events)
}

/// Few rules for many symbols, and a record that they mostly derive.
pub fn sparse(random: &mut Random, draw: DrawImage) -> Drawn {
    let symbols = random.within(1, 16);
    let kinds = any_events(random, 10);
    let (event_rules, pair_rules) = (random.below(25), random.below(33));
    let image = draw(random, symbols, &kinds, event_rules, pair_rules);
    let most = random.one_of(&[4, 8, 16, 24]);
    let events = any_record(random, &image, &kinds, most);
    (image, events)
}

/// Any number of symbols, and any number of rules that leaves room for one more of each kind for
/// each symbol.
pub fn wide(random: &mut Random, draw: DrawImage) -> Drawn {
    let symbols = random.within(1, 64);
    let kinds = any_events(random, 10);
    let (event_rules, pair_rules) = (random.below(513 - symbols), random.below(257 - symbols));
    let image = draw(random, symbols, &kinds, event_rules, pair_rules);
    let most = random.one_of(&[2, 4, 8, 12]);
    let events = any_record(random, &image, &kinds, most);
    (image, events)
}

/// Few rules, and a record of about as many events as there may be.
pub fn long_case(random: &mut Random) -> Drawn {
    let symbols = random.within(1, 5);
    let kinds = any_events(random, 3);
    let image = live_image(random, symbols, &kinds, 8, 10);
    let most = long(random);
    let events = any_record(random, &image, &kinds, most);
    (image, events)
}

/// As many symbols and rules as there may be, one fewer or one more, and few events.
pub fn limits_case(random: &mut Random) -> Drawn {
    let symbols = random.one_of(&[63, 64, 64, 64, 65]);
    let event_rules = random.one_of(&[511, 512, 512, 512, 513]);
    let pair_rules = random.one_of(&[255, 256, 256, 256, 257]);
    let n = random.below(6);
    full_case(random, symbols, event_rules, pair_rules, n)
}

/// As much of everything as there may be.
pub fn largest_case(random: &mut Random) -> Drawn {
    full_case(random, 64, 512, 256, MOST_EVENTS)
}

/// Exactly so many symbols, rules and events, and no symbol dead; all symbols turn into all events of
/// the record but perhaps one.
pub fn full_case(
    random: &mut Random,
    symbols: usize,
    event_rules: usize,
    pair_rules: usize,
    n: usize,
) -> Drawn {
    let event_rules: Vec<_> = (0..event_rules)
        .map(|r| ((r % symbols) as u8, EVENTS[r / symbols]))
        .collect();
    // Each symbol is reached from one below it.
    let mut pairs: BTreeSet<_> = (1..symbols)
        .map(|b| (any_symbol(random, b), b as u8, any_symbol(random, symbols)))
        .collect();
    while pairs.len() < pair_rules {
        let symbol = (pairs.len() % symbols) as u8;
        let [left, right] = [0; 2].map(|_| any_symbol(random, symbols));
        pairs.insert((symbol, left, right));
    }
    let pair_rules: Vec<_> = pairs.into_iter().collect();
    let image = image(symbols as u8, &event_rules, &pair_rules);
    let events = (0..n).map(|_| random.one_of(&EVENTS[..7])).collect();
    (image, spoiled(random, events, 4))
}
