//! Images about dead symbols, and records as for live ones.

use crate::draw::images::examples::{binary_case, chain_case, product_case, stop_case};
use crate::draw::images::sizes::{dense, full_case, sparse, wide};
use crate::draw::records::Drawn;
use second::drawn::{any_image, live_image, start_can_be, with_dead, Sort, TurnsInto, SORTS};
use second::examples::{image, image_of, orders, ring};
use second::image::decode;
use second::random::Random;
use std::mem::swap;

/// Rules as they come, so that mostly several symbols are dead.
pub fn raw_case(random: &mut Random) -> Drawn {
    match random.below(3) {
        0 => dense(random, any_image),
        1 => sparse(random, any_image),
        _ => wide(random, any_image),
    }
}

/// One dead symbol, and a record of the live ones.
pub fn one_dead_case(random: &mut Random) -> Drawn {
    if random.once_in(16) {
        return lone_case(random);
    }
    let sort = random.one_of(&SORTS);
    let (live, events) = live_case(random, sort);
    let live = decode(&live).expect("an accepted image");
    let dead = match random.below(4) {
        0 if start_can_be(sort) => 0,
        1 => live.symbols,
        _ => random.within(1, live.symbols),
    };
    (with_dead(random, live, sort, dead), events)
}

/// No symbol but a dead one.
fn lone_case(random: &mut Random) -> Drawn {
    let image = match random.below(2) {
        0 => image(1, &[], &[]),
        _ => image(1, &[], &[(0, 0, 0)]),
    };
    let n = random.below(3);
    (image, vec![7; n])
}

/// Live symbols with room for a dead one of this sort, and just that much in the largest.
fn live_case(random: &mut Random, (_, reached, turns): Sort) -> Drawn {
    match random.below(8) {
        0 => chain_case(random),
        1 => stop_case(random),
        2 => binary_case(random),
        3 => product_case(random),
        4 | 5 => dense(random, live_image),
        6 => sparse(random, live_image),
        _ => {
            let into_event = turns.contains(&TurnsInto::Event);
            let event_rules = usize::from(into_event);
            let pair_rules = turns.len() - event_rules + usize::from(reached);
            let n = random.below(6);
            full_case(random, 63, 512 - event_rules, 256 - pair_rules, n)
        }
    }
}

/// Symbols that derive something and are reached one after the other only, in any order; sometimes
/// one rule is missing. Few events mostly, or as many as symbol 0 needs at least; many take long.
pub fn ring_case(random: &mut Random) -> Drawn {
    let order = any_order(random);
    let symbols = order.len();
    let leaf = match random.below(3) {
        0 => 0,
        1 => symbols - 1,
        _ => random.below(symbols),
    };
    let ring = ring(&order, leaf, random.once_in(2));
    let mut grammar = decode(&ring).expect("an accepted image");
    for rule in &mut grammar.pair_rules {
        if random.once_in(2) {
            swap(&mut rule.left, &mut rule.right);
        }
    }
    if random.once_in(4) {
        grammar.pair_rules.remove(random.below(symbols));
    }
    let n = match random.below(16) {
        0 => leaf + 1,
        1..=8 => (leaf + 1).min(5),
        _ => random.below(5),
    };
    (image_of(&grammar), vec![7; n])
}

/// Symbols in the order of their numbers, in the other order or in any, but 0 first. Mostly as many
/// as there may be.
fn any_order(random: &mut Random) -> Vec<u8> {
    let symbols = match random.below(4) {
        0 => random.within(1, 64),
        _ => 64,
    };
    let [mut rising, falling] = orders(symbols as u8);
    match random.below(3) {
        0 => rising,
        1 => falling,
        _ => {
            random.shuffle(&mut rising[1..]);
            rising
        }
    }
}
