//! Refusal 15: dead symbols.

mod refused;

use refused::{every_service_refuses, image_is_refused};
use second::drawn::{live_image, pair_rule, start_can_be, with_dead, TurnsInto, SORTS};
use second::examples::{binary, chain, faulty, image, image_of, in_every_way, largest};
use second::examples::{largest_barren, largest_unreached, misspelt, orders, ring, stop};
use second::examples::{version_2, wide, STOP_EVENTS, STOP_PAIRS};
use second::image::{decode, shown, EventRule, Grammar, PairRule};
use second::live::{barren, dead, shortest, unreached};
use second::random::Random;
use second::readings::is_reading;
use second::services::{check, reading, test, Checked};

/// STOP with more symbols, from 6 up, and more rules.
fn stop_and(symbols: u8, event_rules: &[(u8, u16)], pair_rules: &[(u8, u8, u8)]) -> Vec<u8> {
    let event_rules = [&STOP_EVENTS, event_rules].concat();
    image(symbols, &event_rules, &[&STOP_PAIRS, pair_rules].concat())
}

/// An image, its symbols that derive nothing, and those that can't be reached.
type Dead = (Vec<u8>, Vec<usize>, Vec<usize>);

fn dead_images() -> Vec<Dead> {
    vec![
        (misspelt(), vec![0, 1, 3, 6], vec![5]),
        (image(1, &[], &[]), vec![0], vec![]),
        (image(1, &[], &[(0, 0, 0)]), vec![0], vec![]),
        (image(2, &[(0, 7)], &[]), vec![1], vec![1]),
        (image(2, &[(0, 7), (1, 7)], &[(1, 0, 0)]), vec![], vec![1]),
        (image(2, &[(1, 7)], &[(0, 0, 1)]), vec![0], vec![]),
        (
            image(2, &[(0, 7)], &[(0, 0, 1), (1, 1, 0)]),
            vec![1],
            vec![],
        ),
        (
            image(2, &[(0, 7)], &[(0, 1, 0), (1, 0, 1)]),
            vec![1],
            vec![],
        ),
        (stop_and(7, &[], &[(0, 6, 6)]), vec![6], vec![]),
        (stop_and(7, &[], &[(5, 1, 6), (6, 6, 1)]), vec![6], vec![]),
        (stop_and(7, &[(6, 1)], &[]), vec![], vec![6]),
        (stop_and(7, &[], &[(6, 0, 1)]), vec![], vec![6]),
        (stop_and(7, &[], &[]), vec![6], vec![6]),
        (stop_and(7, &[], &[(6, 6, 0)]), vec![6], vec![6]),
        // Two that need each other, and two that lead to each other alone.
        (
            stop_and(8, &[], &[(5, 6, 6), (6, 7, 7), (7, 6, 6)]),
            vec![6, 7],
            vec![],
        ),
        (
            stop_and(8, &[(6, 1)], &[(6, 7, 0), (7, 6, 6)]),
            vec![],
            vec![6, 7],
        ),
        (largest_barren(), vec![63], vec![]),
        (largest_unreached(), vec![], vec![63]),
    ]
}

/// Whatever the version and the flag, the record and the rooms.
#[test]
fn dead_symbols_are_refused() {
    for (image, barren_symbols, unreached_symbols) in dead_images() {
        let grammar = shown(&image).expect("a sound layout");
        assert_eq!(barren(&grammar), barren_symbols);
        assert_eq!(unreached(&grammar), unreached_symbols);
        for image in in_every_way(&image) {
            image_is_refused((15, 0), &image);
            every_service_refuses((15, 0), &image, &[], 0);
            every_service_refuses((15, 0), &image, &[1, 2, 3], 0);
            every_service_refuses((15, 0), &image, &[1, 2, 3], 1_000);
        }
    }
}

/// With as many rules as there may be, and with none to spare.
#[test]
fn live_symbols_are_accepted() {
    let single = image(1, &[(0, 0)], &[]);
    let bare = image(3, &[(1, 7)], &[(0, 2, 2), (2, 1, 1)]);
    let named = [chain(), stop(), binary(), wide(2), wide(64), largest()];
    for version_1 in named.into_iter().chain([single, bare]) {
        for image in in_every_way(&version_1) {
            assert_eq!(test(&image).number, 0);
        }
    }
}

#[test]
fn other_refusals_of_an_image_come_first() {
    let dead = misspelt();
    image_is_refused((15, 0), &dead);
    image_is_refused((4, 0), &version_2(&dead, 2));
    image_is_refused((5, 0), &[dead.clone(), vec![0]].concat());
    image_is_refused((6, 3), &faulty(dead.clone(), &[3], &[]));
    image_is_refused((7, 2), &faulty(dead, &[], &[2]));
    image_is_refused((7, 767), &faulty(largest_barren(), &[], &[767]));
    image_is_refused((7, 767), &faulty(largest_unreached(), &[], &[767]));
}

/// A reading by the rules, but beside an island.
#[test]
fn record_of_live_symbols() {
    let (island, events) = (stop_and(7, &[(6, 1)], &[]), [1, 2, 3]);
    let script = [5, 1, 0, 1, 7, 2, 1, 2, 2, 3];
    let grammar = shown(&island).expect("a sound layout");
    assert!(is_reading(&grammar, &events, &script));
    for image in in_every_way(&island) {
        let refused = Checked {
            number: 15,
            ..Checked::default()
        };
        assert_eq!(check(&image, &events, &script), refused);
        for k in [0, 1, u32::MAX] {
            let (mut table, mut words) = ([8; 42], [7; 10]);
            let read = reading(&image, &events, k, &mut table, &mut words);
            assert_eq!((read.number, read.rule), (15, 0));
            assert_eq!((table, words), ([8; 42], [7; 10]));
        }
    }
}

/// 15 or none.
fn number(dead: bool) -> u8 {
    if dead {
        15
    } else {
        0
    }
}

#[test]
fn rings() {
    for symbols in [1, 2, 3, 8, 64] {
        for order in orders(symbols) {
            for leaf in 0..order.len() {
                ring_and_broken_rings(&order, leaf, false);
                ring_and_broken_rings(&order, leaf, true);
            }
        }
    }
}

/// All are live, though found to be so only one after the other; and without the pair rule of any
/// there are dead ones, unless it was the way back from the last and that has the event.
fn ring_and_broken_rings(order: &[u8], leaf: usize, next_twice: bool) {
    let ring = decode(&ring(order, leaf, next_twice)).expect("an accepted image");
    let last = order.len() - 1;
    for (place, &symbol) in order.iter().enumerate() {
        let mut broken = ring.clone();
        let kept = |rule: &PairRule| rule.symbol != usize::from(symbol);
        broken.pair_rules.retain(kept);
        let dead = place != last || leaf != last;
        assert_eq!(test(&image_of(&broken)).number, number(dead));
    }
}

#[test]
fn longest_of_the_shortest() {
    for order in orders(64) {
        for (next_twice, told) in [(true, 1 << 63), (false, 64)] {
            let ring = decode(&ring(&order, 63, next_twice)).expect("an accepted image");
            assert_eq!(shortest(&ring)[0], Some(told));
        }
    }
}

/// Whether the symbol derives a list of so many events, by trying all rules and splits.
fn derives(grammar: &Grammar, a: usize, length: u128) -> bool {
    let both = |rule: &PairRule, left: u128| {
        derives(grammar, rule.left, left) && derives(grammar, rule.right, length - left)
    };
    match length {
        1 => grammar.event_rules_of(a).count() > 0,
        _ => grammar
            .pair_rules_of(a)
            .any(|(_, rule)| (1..length).any(|left| both(rule, left))),
    }
}

/// Whether a way of at most so many rules leads from the one symbol to the other.
fn leads(grammar: &Grammar, from: usize, to: usize, rules: usize) -> bool {
    let on = |next| leads(grammar, next, to, rules - 1);
    from == to
        || rules > 0
            && grammar
                .pair_rules_of(from)
                .any(|(_, rule)| on(rule.left) || on(rule.right))
}

/// The grammar with those rules of all that there can be, but for the events, that have a one bit.
fn of_bits(symbols: usize, bits: u64) -> Grammar {
    let is_set = |at: &usize| bits >> at & 1 == 1;
    let events = (0..symbols).filter(is_set);
    let pairs = (0..symbols.pow(3)).filter(|at| is_set(&(symbols + at)));
    Grammar {
        symbols,
        admits_empty: false,
        event_rules: events
            .map(|symbol| EventRule { symbol, event: 7 })
            .collect(),
        pair_rules: pairs
            .map(|at| pair_rule(at / symbols.pow(2), [at / symbols % symbols, at % symbols]))
            .collect(),
    }
}

/// The dead symbols by trial, if the search finds the same lengths and the same ones out of reach. No
/// symbol occurs twice on the way down a shortest derivation or on a shortest way to another: that
/// derivation is at most N deep and has at most 2^(N - 1) events, that way has at most N - 1 rules.
fn dead_by_trial(grammar: &Grammar) -> Vec<usize> {
    let n = grammar.symbols;
    let shortest_of = |a: usize| (1..=1 << (n - 1)).find(|&length| derives(grammar, a, length));
    let lengths: Vec<_> = (0..n).map(shortest_of).collect();
    assert_eq!(shortest(grammar), lengths, "{grammar:?}");
    let away = |a: &usize| !leads(grammar, 0, *a, n - 1);
    let unreached_symbols: Vec<_> = (0..n).filter(away).collect();
    assert_eq!(unreached(grammar), unreached_symbols, "{grammar:?}");
    let is_dead = |a: &usize| lengths[*a].is_none() || unreached_symbols.contains(a);
    (0..n).filter(is_dead).collect()
}

/// Every grammar of one or two symbols and one event, and many of three symbols.
#[test]
fn search_and_trial() {
    let mut random = Random::new(6);
    let some_of_three = (0..20_000).map(|_| (3, random.word() & random.word() & random.word()));
    let all_of_two = (0..1 << 10).map(|bits| (2, bits));
    let all_of_one = (0..1 << 2).map(|bits| (1, bits));
    let mut seen = [0; 2];
    for (symbols, bits) in all_of_one.chain(all_of_two).chain(some_of_three) {
        let grammar = of_bits(symbols, bits);
        let dead = !dead_by_trial(&grammar).is_empty();
        assert_eq!(test(&image_of(&grammar)).number, number(dead));
        seen[usize::from(dead)] += 1;
    }
    assert!(seen.iter().all(|&times| times > 1_000), "{seen:?}");
}

/// Also where there is no more room than the rules that are added can need.
#[test]
fn drawn_live() {
    let mut random = Random::new(7);
    for _ in 0..500 {
        let symbols = random.within(1, 64);
        let (event_rules, pair_rules) = match random.below(2) {
            0 => (512 - symbols, 256 - symbols),
            _ => (random.below(20), random.below(20)),
        };
        let image = live_image(&mut random, symbols, &[0, 1], event_rules, pair_rules);
        assert_eq!(test(&image).number, 0);
    }
}

#[test]
fn drawn_with_one_dead_symbol() {
    let mut random = Random::new(8);
    for sort in SORTS.iter().cycle().take(700) {
        let (symbols, rules) = (random.within(1, 6), random.below(12));
        let live = live_image(&mut random, symbols, &[0, 1], rules, rules);
        let live = decode(&live).expect("an accepted image");
        let symbol = random.within(usize::from(!start_can_be(*sort)), symbols);
        let image = with_dead(&mut random, live, *sort, symbol);
        let grammar = shown(&image).expect("a sound layout");
        assert_eq!(dead(&grammar), [symbol]);
        let (_, reached, turns) = sort;
        assert_eq!(unreached(&grammar).is_empty(), *reached);
        let derives = turns.contains(&TurnsInto::Event) || turns.contains(&TurnsInto::Others);
        assert_eq!(barren(&grammar).is_empty(), derives);
    }
}
