//! The specification's own images, with records whose totals are known or near a limit.

use crate::draw::lengths::{long, LONGEST, PAST_WORD};
use crate::draw::records::{spoiled, Drawn};
use second::drawn::{pair_rule, with_symbol};
use second::examples::{binary, chain, digits, image_of, stop};
use second::image::decode;
use second::random::Random;
use second::services::MOST_EVENTS;

pub fn chain_case(random: &mut Random) -> Drawn {
    let n = match random.below(8) {
        0..=3 => random.below(13),
        4 => random.within(18, 24),
        5 | 6 => long(random),
        // Refused too, though few events are left if only 8 or 16 bits of the length are looked at.
        _ => random.one_of(&[256, 259, 256 + MOST_EVENTS, 65_536, 65_539]),
    };
    (chain(), spoiled(random, vec![7; n], 4))
}

/// Stops one after the other, the last perhaps not whole.
pub fn stop_case(random: &mut Random) -> Drawn {
    let most = random.one_of(&[9, 9, 30, LONGEST]);
    let n = random.below(most + 1);
    let events = (0..n).map(|place| 1 + (place % 3) as u16).collect();
    (stop(), spoiled(random, events, 4))
}

/// Totals around the largest that is told exactly, and any others. Zeros before them change no
/// total: with the most, a total of 64 digits fills the longest record.
pub fn binary_case(random: &mut Random) -> Drawn {
    let total = match random.below(4) {
        0 | 1 => 4_294_967_292 + random.below(7) as u64,
        2 => random.within(1_990, 2_010) as u64,
        _ => random.word() >> random.below(64),
    };
    let zeros = match random.below(16) {
        0 => MOST_EVENTS - 64,
        1..=3 => 1,
        4..=6 => 5,
        _ => 0,
    };
    (binary(), [vec![0; zeros], digits(total)].concat())
}

/// BINARY twice, one after the other: sums of products, also of zero and very many.
pub fn product_case(random: &mut Random) -> Drawn {
    let once = decode(&binary()).expect("an accepted image");
    let mut grammar = with_symbol(once, 0);
    grammar.pair_rules.push(pair_rule(0, [1, 1]));
    let most = random.one_of(&[6, 20, 40, 50]);
    let (zeros, n) = (random.below(most + 1), random.below(most + 1));
    // Zeros at one end, so that one factor is zero where the other is largest.
    let mut events = vec![0; zeros.min(n)];
    events.resize_with(n, || random.below(2) as u16);
    if random.once_in(2) {
        events.reverse();
    }
    (image_of(&grammar), events)
}

/// BINARY with totals around the largest that is told exactly, in a record above 64 events: zeros
/// before them change no total, and an event of no rule before those leaves the table the sparser.
pub fn counted_case(random: &mut Random) -> Drawn {
    let total = 4_294_967_292 + random.below(7) as u64;
    let digits = digits(total);
    let before = random.one_of(&[0, 2]);
    let n = random.one_of(&PAST_WORD);
    let mut events = vec![before; n - digits.len()];
    events.extend(digits);
    (binary(), events)
}
