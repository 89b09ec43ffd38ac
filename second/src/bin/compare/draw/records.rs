//! Records, mostly such as the rules of an image derive.

use crate::draw::events::EVENTS;
use second::image::shown;
use second::random::Random;

/// An image and a record.
pub type Drawn = (Vec<u8>, Vec<u16>);

/// A record of about at most so many events: mostly one that the rules derive, if chance finds it.
pub fn any_record(random: &mut Random, image: &[u8], kinds: &[u16], most: usize) -> Vec<u16> {
    let derived = (0..4).find_map(|_| derived(random, image, most));
    match derived {
        Some(events) if !random.once_in(8) => spoiled(random, events, 8),
        _ => {
            let n = random.below(most + 1);
            (0..n).map(|_| random.one_of(kinds)).collect()
        }
    }
}

/// The events of a random derivation from symbol 0, unless it comes to a symbol without rules or
/// to more than `most` events.
fn derived(random: &mut Random, image: &[u8], most: usize) -> Option<Vec<u16>> {
    let grammar = shown(image).ok()?;
    let (mut open, mut events) = (vec![0], Vec::new());
    while let Some(a) = open.pop() {
        let leaves: Vec<_> = grammar.event_rules_of(a).map(|(_, r)| r.event).collect();
        let pairs: Vec<_> = grammar.pair_rules_of(a).map(|(_, r)| *r).collect();
        let room = events.len() + open.len() + 2 <= most;
        if !pairs.is_empty() && room && (leaves.is_empty() || !random.once_in(6)) {
            let pair = random.one_of(&pairs);
            open.extend([pair.right, pair.left]);
        } else if leaves.is_empty() {
            return None;
        } else {
            events.push(random.one_of(&leaves));
        }
    }
    Some(events)
}

/// Once in `count` times with one event changed.
pub fn spoiled(random: &mut Random, mut events: Vec<u16>, count: usize) -> Vec<u16> {
    if !events.is_empty() && random.once_in(count) {
        let place = random.below(events.len());
        events[place] = random.one_of(&EVENTS);
    }
    events
}
