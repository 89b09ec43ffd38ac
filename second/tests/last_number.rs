//! The number of a script in records of so many readings that numbers end.

mod numbered;

use numbered::{numbered, refused, script, told, LAST};
use second::examples::{binary, chain, digits, wide};
use second::image::{decode, Grammar};
use second::readings::Readings;
use second::services::check;
use second::trees::script_words;

/// Records with so many readings that numbers end, or just don't.
fn with_many_readings() -> Vec<(Vec<u8>, Vec<u16>)> {
    let mut records: Vec<_> = (LAST - 1..LAST + 5)
        .map(|total| (binary(), digits(total)))
        .collect();
    let larger = [1 << 33, (1 << 40) + 12_345, u64::MAX];
    records.extend(larger.map(|total| (binary(), digits(total))));
    records.extend([21, 22, 40, 96].map(|n| (chain(), vec![7; n])));
    records.extend([15, 16, 40].map(|n| (wide(3), vec![7; n])));
    records
}

/// By their true numbers, which are known far past the last that is told.
#[test]
fn numbers_around_the_last() {
    let mut seen = [0; 2];
    for (image, events) in with_many_readings() {
        let grammar = decode(&image).expect("an accepted image");
        let readings = Readings::of(&grammar, &events);
        let total = readings.total();
        let near = LAST - 2..LAST + 4;
        let numbers = [0, 1, 1 << 31, 1 << 33, 1 << 50, total - 1];
        for number in near.chain(numbers).filter(|&number| number < total) {
            let words = readings.unranked(0, 0, events.len(), number);
            assert_eq!(numbered(&image, &events, &words), told(Some(number)));
            if number <= LAST {
                assert_eq!(script(&image, &events, number as u32), words);
            }
            seen[usize::from(number > LAST)] += 1;
        }
    }
    assert!(seen[0] > 80 && seen[1] > 40, "{seen:?}");
}

/// A part of a script: where it starts, and its symbol and stretch.
type Part = (usize, usize, usize, usize);

fn parts(grammar: &Grammar, words: &[u16], (at, a, i, k): Part) -> Vec<Part> {
    let mut all = vec![(at, a, i, k)];
    let (rule, split) = (usize::from(words[at]), usize::from(words[at + 1]));
    if let Some((_, pair)) = grammar.pair_rules_of(a).find(|&(r, _)| r == rule) {
        let right = at + 2 + script_words(split - i);
        all.extend(parts(grammar, words, (at + 2, pair.left, i, split)));
        all.extend(parts(grammar, words, (right, pair.right, split, k)));
    }
    all
}

/// The script with one part as another derivation of the same: the first, the one before, the one
/// after and the last that can be told. Each is another reading.
fn with_a_part_changed(readings: &Readings, words: &[u16]) -> Vec<Vec<u16>> {
    let mut all = Vec::new();
    for (at, a, i, k) in parts(readings.grammar, words, (0, 0, 0, readings.events.len())) {
        let part = at..at + script_words(k - i);
        let own = readings.ranked(a, i, k, &words[part.clone()]);
        let count = readings.derivations(a, i, k);
        for number in [Some(0), own.checked_sub(1), Some(own + 1), Some(count - 1)] {
            let Some(number) = number.filter(|&number| number < count && number != own) else {
                continue;
            };
            let mut other = words.to_vec();
            other[part.clone()].copy_from_slice(&readings.unranked(a, i, k, number));
            all.push(other);
        }
    }
    all
}

/// From the last script that has a number told to later ones, which have none, and to earlier ones.
#[test]
fn later_and_earlier_than_the_last() {
    let (mut later, mut earlier) = (0, 0);
    for (image, events) in with_many_readings() {
        let grammar = decode(&image).expect("an accepted image");
        let readings = Readings::of(&grammar, &events);
        if readings.total() <= LAST {
            continue;
        }
        let last = script(&image, &events, LAST as u32);
        assert_eq!(numbered(&image, &events, &last), told(Some(LAST)));
        for other in with_a_part_changed(&readings, &last) {
            assert!(check(&image, &events, &other).yes);
            let answer = numbered(&image, &events, &other);
            if other > last {
                assert_eq!(answer, refused(13));
                later += 1;
            } else {
                assert!(answer.number == 0 && u64::from(answer.reading) < LAST);
                assert_eq!(script(&image, &events, answer.reading), other);
                earlier += 1;
            }
        }
    }
    assert!(later > 100 && earlier > 100, "{later} and {earlier}");
}

/// 12 before 13: what comes before the wrong word would be past all numbers already.
#[test]
fn late_scripts_with_a_wrong_word() {
    for (image, events) in with_many_readings() {
        let grammar = decode(&image).expect("an accepted image");
        let readings = Readings::of(&grammar, &events);
        let late = readings.unranked(0, 0, events.len(), readings.total() - 1);
        for place in 0..late.len() {
            let mut other = late.clone();
            other[place] += 1;
            assert_eq!(readings.number(&other), None);
        }
        let mut other = late.clone();
        other[late.len() - 1] -= 1;
        assert_eq!(numbered(&image, &events, &other), refused(12));
        assert_eq!(numbered(&image, &events, &late[1..]), refused(12));
    }
}
