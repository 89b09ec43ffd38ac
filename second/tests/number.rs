//! The number of a script, beside all readings written down and sorted.

mod numbered;
mod small;

use numbered::{numbered, refused, room, script, told};
use second::derive::cells;
use second::examples::{chain, image, image_of, stop, version_2, wide};
use second::image::{decode, Grammar};
use second::random::Random;
use second::readings::{listed, Readings};
use second::services::number;
use small::small;

/// Each number to its script in the list, and each script to its number.
fn there_and_back(image: &[u8], events: &[u16], all: &[Vec<u16>]) {
    for (number, words) in (0..).zip(all) {
        assert_eq!(script(image, events, number as u32), *words);
        assert_eq!(numbered(image, events, words), told(Some(number)));
    }
}

#[test]
fn every_number_of_small_records() {
    let mut random = Random::new(9);
    let mut seen = 0;
    for _ in 0..400 {
        let (grammar, events) = small(&mut random);
        let all = listed(&grammar, &events);
        if all.len() <= 100 {
            there_and_back(&image_of(&grammar), &events, &all);
            seen += all.len();
        }
    }
    assert!(seen > 2_000, "only {seen} readings");
}

/// So many that the service doesn't write them all down.
#[test]
fn every_number_of_thousands() {
    let (image, events) = (wide(3), [7; 7]);
    let all = listed(&decode(&image).expect("an accepted image"), &events);
    assert_eq!(all.len(), 9_912);
    there_and_back(&image, &events, &all);
}

/// Every derivation of every symbol over every stretch has the number of its place.
#[test]
fn places_of_parts() {
    let grammar = decode(&wide(3)).expect("an accepted image");
    let events = [7; 6];
    let readings = Readings::of(&grammar, &events);
    for i in 0..6 {
        for k in i + 1..=6 {
            for a in 0..grammar.symbols {
                let count = readings.derivations(a, i, k);
                let scripts: Vec<_> = (0..count).map(|c| readings.unranked(a, i, k, c)).collect();
                assert!(scripts.is_sorted_by(|one, next| one < next));
                for (number, script) in (0..).zip(&scripts) {
                    assert_eq!(readings.ranked(a, i, k, script), number);
                }
            }
        }
    }
}

/// With every word changed to every number that means something, to one more, and in its high byte.
fn with_a_word_changed(script: &[u16], words: u16) -> Vec<Vec<u16>> {
    let mut all = Vec::new();
    for place in 0..script.len() {
        let more = [script[place] + 256, script[place] + 0x8000, u16::MAX];
        for word in (0..=words + 1).chain(more) {
            let mut other = script.to_vec();
            other[place] = word;
            all.push(other);
        }
    }
    all
}

/// The first number above all that mean something.
fn meant(grammar: &Grammar, events: &[u16]) -> u16 {
    let rules = grammar.event_rules.len() + grammar.pair_rules.len();
    rules.max(events.len()) as u16
}

/// Few readings or many: what is said is whether the words are in the list, and where.
#[test]
fn one_word_changed() {
    let mut random = Random::new(10);
    let (mut few, mut many, mut wrong) = (0, 0, 0);
    for _ in 0..800 {
        let (grammar, events) = small(&mut random);
        let all = listed(&grammar, &events);
        let readings = Readings::of(&grammar, &events);
        match all.len() {
            0..=2_000 => few += 1,
            _ => many += 1,
        }
        for script in all.iter().step_by(all.len() / 8 + 1) {
            for other in with_a_word_changed(script, meant(&grammar, &events)) {
                let place = all.binary_search(&other).ok();
                assert_eq!(readings.number(&other), place.map(|p| p as u64));
                wrong += usize::from(place.is_none());
            }
        }
    }
    assert!(few > 500 && many > 5, "{few} and {many}");
    assert!(wrong > 100_000, "only {wrong}");
}

#[test]
fn one_word_changed_in_the_service() {
    let branching = image(
        2,
        &[(0, 7), (1, 7), (1, 8)],
        &[(0, 0, 0), (0, 0, 1), (0, 1, 1)],
    );
    for (image, events) in [
        (chain(), vec![7; 4]),
        (stop(), vec![1, 2, 3, 1, 2, 3]),
        (branching, vec![7, 8, 7]),
        (wide(3), vec![7; 7]),
    ] {
        let grammar = decode(&image).expect("an accepted image");
        let all = listed(&grammar, &events);
        for script in all.iter().step_by(all.len() / 4 + 1) {
            for other in with_a_word_changed(script, meant(&grammar, &events)) {
                let place = all.binary_search(&other).ok();
                let place = place.map(|place| place as u64);
                assert_eq!(numbered(&image, &events, &other), told(place));
            }
        }
    }
}

#[test]
fn wrong_lengths() {
    for (image, events) in [
        (chain(), vec![7; 4]),
        (stop(), vec![1, 2, 3]),
        (wide(3), vec![7; 7]),
        (chain(), vec![7; 30]),
    ] {
        let right = script(&image, &events, 0);
        assert_eq!(numbered(&image, &events, &right), told(Some(0)));
        let endless = right.iter().cycle().take(right.len() + 65_536);
        let endless: Vec<_> = endless.copied().collect();
        let more = [1, 2, 3, 4, right.len(), 256, 65_536].map(|more| right.len() + more);
        for length in (0..right.len()).chain(more) {
            let words = &endless[..length];
            assert_eq!(numbered(&image, &events, words), refused(12));
        }
    }
}

/// Readings of other records, of other symbols, and of the whole record in parts.
#[test]
fn scripts_of_something_else() {
    let first = [4, 1, 0, 1, 6, 2, 1, 2, 2, 3];
    assert_eq!(numbered(&stop(), &[1, 2, 3], &first), told(Some(0)));
    for events in [&[1, 2][..], &[1, 2, 2], &[1, 2, 3, 1, 2, 3]] {
        assert_eq!(numbered(&stop(), events, &first), refused(12));
    }
    // A stop is a press and a tail too, and a tail alone is no day.
    let of_a_stop = [5, 1, 0, 1, 6, 2, 1, 2, 2, 3];
    assert_eq!(numbered(&stop(), &[1, 2, 3], &of_a_stop), refused(12));
    assert_eq!(numbered(&stop(), &[2, 3], &[6, 1, 1, 1, 2, 2]), refused(12));
}

/// Whatever the script and its length, and whatever would be refused later.
#[test]
fn refusal_10_leaves_the_table() {
    for (image, events) in [(chain(), vec![7; 21]), (stop(), vec![1, 2, 3])] {
        let need = usize::from(image[5]) * cells(events.len());
        let right = script(&image, &events, 0);
        let scripts = [&right[..], &right[1..], &[], &[9; 1_000]];
        for (script, short) in scripts.iter().flat_map(|s| [(s, need - 1), (s, 1), (s, 0)]) {
            let mut table = room(short);
            assert_eq!(number(&image, &events, script, &mut table), refused(10));
            assert_eq!(table, room(short));
        }
    }
}

#[test]
fn quiet_records() {
    for version_1 in [chain(), stop(), wide(64)] {
        for (image, none) in [
            (version_1.clone(), 12),
            (version_2(&version_1, 0), 12),
            (version_2(&version_1, 1), 0),
        ] {
            assert_eq!(numbered(&image, &[], &[]), refused(none));
            for words in [&[0][..], &[0, 0], &[0, 1], &[0; 65_536]] {
                assert_eq!(numbered(&image, &[], words), refused(12));
            }
        }
    }
}
