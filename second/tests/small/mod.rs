//! Small random grammars and records.

use second::drawn::live_image;
use second::image::{decode, Grammar};
use second::random::Random;

/// A grammar of few symbols and events, and a record of at most six events.
pub fn small(random: &mut Random) -> (Grammar, Vec<u16>) {
    let symbols = random.within(1, 3);
    let kinds = &[0, 1][..random.within(1, 2)];
    let (event_rules, pair_rules) = (random.within(1, 5), random.within(1, 8));
    let image = live_image(random, symbols, kinds, event_rules, pair_rules);
    let n = random.within(1, 6);
    let events = (0..n).map(|_| random.one_of(kinds)).collect();
    (decode(&image).expect("an accepted image"), events)
}
