//! What is worked out quickly, beside all derivations written down one by one.

mod small;

use second::derive::{counts, derivable, firings, stretches};
use second::examples::{binary, digits, image};
use second::image::{decode, Grammar};
use second::random::Random;
use second::readings::{is_reading, listed, Readings};
use small::small;

/// The script of every derivation of [a, i, k], from the definition and nothing else.
fn scripts(grammar: &Grammar, events: &[u16], a: usize, i: usize, k: usize) -> Vec<Vec<u16>> {
    let mut scripts = Vec::new();
    for (rule, event_rule) in grammar.event_rules_of(a) {
        if k == i + 1 && event_rule.event == events[i] {
            scripts.push(vec![rule as u16, k as u16]);
        }
    }
    for (rule, pair) in grammar.pair_rules_of(a) {
        for j in i + 1..k {
            for left in self::scripts(grammar, events, pair.left, i, j) {
                for right in self::scripts(grammar, events, pair.right, j, k) {
                    let root = vec![rule as u16, j as u16];
                    scripts.push([root, left.clone(), right].concat());
                }
            }
        }
    }
    scripts
}

#[test]
fn counts_chart_and_firings() {
    let mut random = Random::new(1);
    for _ in 0..500 {
        let (grammar, events) = small(&mut random);
        let all = |a, i, k| scripts(&grammar, &events, a, i, k).len();
        let (counts, derivable) = (counts(&grammar, &events), derivable(&grammar, &events));
        let mut fired = 0;
        for (i, k) in stretches(events.len()) {
            for a in 0..grammar.symbols {
                assert_eq!(counts.get(a, i, k), all(a, i, k) as u64);
                assert_eq!(derivable.get(a, i, k), all(a, i, k) > 0);
            }
            for rule in &grammar.event_rules {
                fired += usize::from(k == i + 1 && rule.event == events[i]);
            }
            for rule in &grammar.pair_rules {
                let both = |j: &usize| all(rule.left, i, *j) > 0 && all(rule.right, *j, k) > 0;
                fired += (i + 1..k).filter(both).count();
            }
        }
        assert_eq!(firings(&grammar, &events, &derivable), fired as u64);
    }
}

#[test]
fn readings_both_ways() {
    let mut random = Random::new(2);
    let mut seen = 0;
    for _ in 0..500 {
        let (grammar, events) = small(&mut random);
        let n = events.len();
        let mut sorted = scripts(&grammar, &events, 0, 0, n);
        sorted.sort();
        let readings = Readings::of(&grammar, &events);
        assert_eq!(listed(&grammar, &events), sorted);
        assert_eq!(readings.total(), sorted.len() as u64);
        for (number, script) in sorted.iter().enumerate() {
            let number = number as u64;
            assert_eq!(readings.unranked(0, 0, n, number), *script);
            assert_eq!(readings.ranked(0, 0, n, script), number);
            assert_eq!(readings.script(number), *script);
            assert_eq!(readings.number(script), Some(number));
        }
        seen += sorted.len();
    }
    assert!(seen > 10_000, "only {seen} readings");
}

/// Every script with every word changed to every number that means something, and one more.
#[test]
fn checks_are_membership() {
    let mut random = Random::new(3);
    let (mut yes, mut no) = (0, 0);
    for _ in 0..200 {
        let (grammar, events) = small(&mut random);
        let all = listed(&grammar, &events);
        let words = (grammar.event_rules.len() + grammar.pair_rules.len()).max(events.len());
        for script in all.iter().take(20) {
            for place in 0..script.len() {
                for word in 0..=words as u16 + 1 {
                    let mut other = script.clone();
                    other[place] = word;
                    let told = all.contains(&other);
                    assert_eq!(is_reading(&grammar, &events, &other), told);
                    *(if told { &mut yes } else { &mut no }) += 1;
                }
            }
        }
    }
    assert!(yes > 10_000 && no > 100_000, "{yes} and {no}");
}

/// All lists of six words below 6 for two events, and lists of other lengths.
#[test]
fn checks_of_all_words() {
    let grammar = decode(&image(
        2,
        &[(0, 1), (1, 1), (1, 2)],
        &[(0, 0, 1), (0, 1, 1)],
    ));
    let (grammar, events) = (grammar.expect("an accepted image"), [1, 1]);
    let all = listed(&grammar, &events);
    assert_eq!(all, [[3, 1, 0, 1, 1, 2], [4, 1, 1, 1, 1, 2]]);
    for number in 0..6_u32.pow(6) {
        let words: Vec<_> = (0..6).map(|p| (number / 6_u32.pow(p) % 6) as u16).collect();
        let told = all.contains(&words);
        assert_eq!(is_reading(&grammar, &events, &words), told);
    }
    for script in all {
        assert!(!is_reading(&grammar, &events, &script[..5]));
        assert!(!is_reading(&grammar, &events, &script[..4]));
        assert!(!is_reading(&grammar, &events, &[]));
        let grown = [script, vec![1, 2]].concat();
        assert!(!is_reading(&grammar, &events, &grown));
        assert!(!is_reading(&grammar, &events, &grown[..7]));
    }
}

#[test]
fn exact_totals() {
    let grammar = decode(&binary()).expect("an accepted image");
    for total in [1, 2, 1_999, 2_000, 2_001, 4_294_967_295, 1 << 32, u64::MAX] {
        let events = digits(total);
        assert_eq!(Readings::of(&grammar, &events).total(), total);
    }
}

/// Around 2,000 readings, where listing them all gives way to counting, and among very many, up to
/// the last that has a number: each script is a reading and above its predecessor.
#[test]
fn scripts_rise() {
    let grammar = decode(&binary()).expect("an accepted image");
    for total in [2_000, 2_001, 1 << 40, u64::MAX] {
        let events = digits(total);
        let readings = Readings::of(&grammar, &events);
        let last = (total - 1).min(4_294_967_294);
        for k in [0, 1, 1_000, last / 2, last - 1] {
            let two = [readings.script(k), readings.script(k + 1)];
            assert!(two[0] < two[1]);
            assert!(two.iter().all(|s| is_reading(&grammar, &events, s)));
        }
    }
}

/// Seven symbols that can be anything have more derivations than a u64 holds.
#[test]
fn more_than_can_be_counted() {
    let pair_rules: Vec<_> = (0..=255).map(|r| (r / 37, r / 7 % 7, r % 7)).collect();
    let event_rules: Vec<_> = (0..7).map(|a| (a, 0)).collect();
    let image = image(7, &event_rules, &pair_rules);
    let grammar = decode(&image).expect("an accepted image");
    let readings = Readings::of(&grammar, &[0; 96]);
    assert_eq!(readings.total(), u64::MAX);
    let (first, last) = (readings.script(0), readings.script(4_294_967_294));
    assert!(first < last);
    assert!(is_reading(&grammar, &[0; 96], &last));
}
