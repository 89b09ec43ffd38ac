//! Images and records of any length up to the limit whose charts are as full or as empty as they are
//! meant to be.

use crate::draw::events::{but_for_one_bit, EVENTS};
use crate::draw::lengths::{LENGTHS, PAST_WORD};
use crate::draw::records::Drawn;
use second::drawn::{enlivened, pair_rule};
use second::examples::image_of;
use second::image::{EventRule, Grammar, PairRule};
use second::random::Random;
use second::services::MOST_EVENTS;

/// How many symbols there are, how many of them derive every stretch of the common event, and how
/// many pair rules more than it takes there may be.
struct Sizes {
    symbols: usize,
    everywhere: usize,
    more_rules: usize,
}

/// Symbols that derive everything among others that derive little, and a record with gaps.
pub fn layered_case(random: &mut Random) -> Drawn {
    let sizes = any_sizes(random);
    let n = any_length(random, &sizes);
    let common = match random.below(2) {
        0 => random.one_of(&EVENTS),
        _ => random.word() as u16,
    };
    let grammar = layered(random, sizes, common);
    let events = with_gaps(random, &grammar, common, n);
    (image_of(&grammar), events)
}

/// Few symbols mostly, as few rules show what each does; more of them for so many in a cell, or for
/// as many as there may be.
fn any_sizes(random: &mut Random) -> Sizes {
    let (symbols, everywhere) = match random.below(32) {
        0..=2 => (1, 1),
        3..=8 => (2, 1),
        9..=13 => (3, random.below(4)),
        14..=19 => (random.within(4, 6), random.below(4)),
        20..=23 => (random.one_of(&[5, 6, 7, 10]), 5),
        24..=27 => (random.one_of(&[15, 16, 17, 30]), 15),
        _ => (random.one_of(&[63, 63, 64]), random.below(4)),
    };
    let more_rules = match random.below(16) {
        0..=9 => 0,
        10..=13 => random.within(1, 4),
        _ => 256 - symbols - everywhere,
    };
    Sizes {
        symbols,
        everywhere,
        more_rules,
    }
}

/// One of the lengths, or any; a long record with many rules takes long and is rare.
fn any_length(random: &mut Random, sizes: &Sizes) -> usize {
    let n = match random.below(8) {
        0 => random.within(1, MOST_EVENTS),
        1..=3 => random.one_of(&LENGTHS),
        4 => random.one_of(&[63, 64]),
        _ => random.one_of(&PAST_WORD),
    };
    let rules = sizes.symbols + sizes.more_rules;
    match rules.min(sizes.symbols.pow(3)) {
        0..=11 => n,
        12..=49 => n.min(66),
        _ if random.once_in(4) => n.min(66),
        _ => n.min(17),
    }
}

/// Each symbol that derives everything does so by one rule: itself beside one that turns into the
/// common event. The others turn into that mostly, or into one that it differs from in one bit.
fn layered(random: &mut Random, sizes: Sizes, common: u16) -> Grammar {
    let mut order: Vec<_> = (0..sizes.symbols).collect();
    // The start stays first half the time, so that few rules reach the others.
    let shuffled_from = random.below(2);
    random.shuffle(&mut order[shuffled_from..]);
    let (everywhere, others) = order.split_at(sizes.everywhere);
    let also = others.iter().filter(|_| !random.once_in(4));
    let known: Vec<_> = also.chain(everywhere).copied().collect();
    let event_rule = |&symbol| EventRule {
        symbol,
        event: common,
    };
    let mut grammar = Grammar {
        symbols: sizes.symbols,
        admits_empty: false,
        event_rules: known.iter().map(event_rule).collect(),
        pair_rules: by_itself(random, everywhere, &known),
    };
    for _ in 0..sizes.more_rules {
        grammar.pair_rules.push(any_pair(random, sizes.symbols));
    }
    let rare = [0; 2].map(|_| but_for_one_bit(random, common));
    enlivened(random, grammar, &rare)
}

/// A rule for each of the symbols: itself beside a known one, any or the first. The first turns into
/// nothing longer mostly, and then a stretch is split at its last place or at its first alone.
fn by_itself(random: &mut Random, symbols: &[usize], known: &[usize]) -> Vec<PairRule> {
    let way = random.below(8);
    let mut rules = Vec::new();
    for &symbol in symbols {
        let parts = match way {
            0..=3 => [symbol, known[0]],
            4 => [known[0], symbol],
            _ => {
                let beside = random.one_of(known);
                random.one_of(&[[symbol, beside], [beside, symbol]])
            }
        };
        rules.push(pair_rule(symbol, parts));
    }
    rules
}

fn any_pair(random: &mut Random, symbols: usize) -> PairRule {
    let [symbol, left, right] = [0; 3].map(|_| random.below(symbols));
    pair_rule(symbol, [left, right])
}

/// A record of the common event, but for gaps: events of no rule mostly, near those of one, or of
/// any rule. None often, or one, few or many, or one at each second place.
fn with_gaps(random: &mut Random, grammar: &Grammar, common: u16, n: usize) -> Vec<u16> {
    let mut events = vec![common; n];
    let one_in = match random.below(16) {
        0..=5 => return events,
        6 | 7 => {
            events[random.below(n)] = any_gap(random, grammar, common);
            return events;
        }
        8 | 9 => {
            let odd = events.iter_mut().skip(1).step_by(2);
            odd.for_each(|event| *event = unknown(random, grammar, common));
            return events;
        }
        10 => 24,
        11 | 12 => 6,
        _ => 2,
    };
    for event in &mut events {
        if random.once_in(one_in) {
            *event = any_gap(random, grammar, common);
        }
    }
    events
}

fn any_gap(random: &mut Random, grammar: &Grammar, common: u16) -> u16 {
    match random.below(4) {
        0 => random.one_of(&grammar.event_rules).event,
        _ => unknown(random, grammar, common),
    }
}

/// An event of no rule, mostly one that differs in one bit from the common event.
fn unknown(random: &mut Random, grammar: &Grammar, common: u16) -> u16 {
    loop {
        let event = match random.below(8) {
            0 => random.word() as u16,
            1 => u16::MAX,
            _ => but_for_one_bit(random, common),
        };
        if !grammar.event_rules.iter().any(|rule| rule.event == event) {
            return event;
        }
    }
}
