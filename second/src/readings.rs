//! The readings of a record in their order, and whether words are the script of one.

use crate::derive::{counts, derivable, matches, Table};
use crate::image::Grammar;
use crate::trees::{script_words, Forest};
use std::cell::OnceCell;
use std::cmp::Ordering::{Equal, Greater, Less};

/// Up to so many readings all are written down and sorted.
const FEW: u64 = 2_000;

/// The readings of a record, numbered.
pub struct Readings<'a> {
    pub grammar: &'a Grammar,
    pub events: &'a [u16],
    counts: Table<u64>,
    /// Every script in order, once one is asked for and where there are few.
    listed: OnceCell<Vec<Vec<u16>>>,
}

impl<'a> Readings<'a> {
    pub fn of(grammar: &'a Grammar, events: &'a [u16]) -> Self {
        Readings {
            grammar,
            events,
            counts: counts(grammar, events),
            listed: OnceCell::new(),
        }
    }

    /// The number of derivations of [a, i, k], cut at the largest u64; none of an empty stretch.
    pub fn derivations(&self, a: usize, i: usize, k: usize) -> u64 {
        match k - i {
            0 => 0,
            _ => self.counts.get(a, i, k),
        }
    }

    /// The number of readings, cut at the largest u64. An empty record has one where the grammar
    /// admits it, though no symbol derives it.
    pub fn total(&self) -> u64 {
        match self.events {
            [] => self.grammar.admits_empty.into(),
            _ => self.derivations(0, 0, self.events.len()),
        }
    }

    /// The count table: each number of derivations, or 4,294,967,295 if that is smaller.
    pub fn table(&self) -> Vec<u32> {
        self.counts.words.iter().map(|&count| cut(count)).collect()
    }

    /// The script of reading `number`, which must be below the total.
    pub fn script(&self, number: u64) -> Vec<u16> {
        if self.total() > FEW {
            return self.unranked(0, 0, self.events.len(), number);
        }
        self.all()[number as usize].clone()
    }

    /// The number of the reading that the words are the script of, cut at the largest u64; none if
    /// they aren't one's.
    pub fn number(&self, words: &[u16]) -> Option<u64> {
        if !is_reading(self.grammar, self.events, words) {
            return None;
        }
        if self.total() > FEW {
            return Some(self.ranked(0, 0, self.events.len(), words));
        }
        let place = self.all().iter().position(|script| script == words);
        place.map(|place| place as u64)
    }

    fn all(&self) -> &[Vec<u16>] {
        let all = || listed(self.grammar, self.events);
        self.listed.get_or_init(all)
    }

    /// The script of derivation `number` of [a, i, k], found by how many come before it; `number`
    /// must be below their count. It is only compared with counts and divided by one, and it is
    /// below the largest u64, so that a count cut there does as well as the true one.
    ///
    /// The scripts of one stretch are equally long, and so are their left parts if the splits are
    /// equal. So the rule decides first, then the split, then the left part, then the right part.
    pub fn unranked(&self, a: usize, i: usize, k: usize, mut number: u64) -> Vec<u16> {
        for (rule, event_rule) in self.grammar.event_rules_of(a) {
            if matches(event_rule, self.events, i, k) {
                if number == 0 {
                    return vec![rule as u16, k as u16];
                }
                number -= 1;
            }
        }
        for (rule, pair) in self.grammar.pair_rules_of(a) {
            for j in i + 1..k {
                let rights = self.counts.get(pair.right, j, k);
                let both = self.counts.get(pair.left, i, j).saturating_mul(rights);
                if number < both {
                    let left = self.unranked(pair.left, i, j, number / rights);
                    let right = self.unranked(pair.right, j, k, number % rights);
                    return [vec![rule as u16, j as u16], left, right].concat();
                }
                number -= both;
            }
        }
        panic!("there is no derivation of this number");
    }

    /// How many derivations of [a, i, k] come before the one with these words, which must be the
    /// script of one: those of an earlier rule or split, those of an earlier left part, each with
    /// every right part, and those of an earlier right part.
    ///
    /// Sums and products are cut at the largest u64, and so the result is the smaller of that and
    /// the true number, as in `counts`: exact as far as readings are numbered, and far past that.
    pub fn ranked(&self, a: usize, i: usize, k: usize, words: &[u16]) -> u64 {
        let root = (words[0] as usize, words[1] as usize);
        let leaves = self.grammar.event_rules_of(a);
        let matching = leaves.filter(|(_, rule)| matches(rule, self.events, i, k));
        let mut before = matching.filter(|&(rule, _)| (rule, k) < root).count() as u64;
        for (rule, pair) in self.grammar.pair_rules_of(a) {
            for j in i + 1..k {
                let rights = self.counts.get(pair.right, j, k);
                let earlier = match (rule, j).cmp(&root) {
                    Less => self.counts.get(pair.left, i, j).saturating_mul(rights),
                    Equal => {
                        let (left, right) = words[2..].split_at(script_words(j - i));
                        let lefts = self.ranked(pair.left, i, j, left);
                        let last = self.ranked(pair.right, j, k, right);
                        lefts.saturating_mul(rights).saturating_add(last)
                    }
                    Greater => 0,
                };
                before = before.saturating_add(earlier);
            }
        }
        before
    }
}

/// The smaller of 4,294,967,295 and the count.
pub fn cut(count: u64) -> u32 {
    count.min(u32::MAX.into()) as u32
}

/// The script of every reading, sorted: of every derivation of [0, 0, n], or the empty script alone
/// where an empty record is admitted. Lists of words are compared word by word and the first
/// difference decides.
pub fn listed(grammar: &Grammar, events: &[u16]) -> Vec<Vec<u16>> {
    if events.is_empty() {
        return Vec::from_iter(grammar.admits_empty.then(Vec::new));
    }
    let forest = Forest {
        grammar,
        events,
        derivable: &derivable(grammar, events),
    };
    let trees = forest.trees(0, 0, events.len());
    let mut scripts: Vec<_> = trees.iter().map(|tree| tree.script()).collect();
    scripts.sort();
    scripts
}

/// Whether the words are the script of a reading: of a derivation of [0, 0, n], or none at all where
/// an empty record is admitted.
pub fn is_reading(grammar: &Grammar, events: &[u16], words: &[u16]) -> bool {
    match events {
        [] => grammar.admits_empty && words.is_empty(),
        _ => is_script(grammar, events, words, 0, 0, events.len()),
    }
}

/// Whether the words are the script of a derivation of [a, i, k].
fn is_script(
    grammar: &Grammar,
    events: &[u16],
    words: &[u16],
    a: usize,
    i: usize,
    k: usize,
) -> bool {
    if words.len() != script_words(k - i) {
        return false;
    }
    let (number, split) = (words[0] as usize, words[1] as usize);
    if k == i + 1 {
        let mut rules = grammar.event_rules_of(a);
        return split == i + 1 && rules.any(|(r, rule)| r == number && matches(rule, events, i, k));
    }
    let Some((_, rule)) = grammar.pair_rules_of(a).find(|(r, _)| *r == number) else {
        return false;
    };
    if !(i < split && split < k) {
        return false;
    }
    let (left, right) = words[2..].split_at(script_words(split - i));
    is_script(grammar, events, left, rule.left, i, split)
        && is_script(grammar, events, right, rule.right, split, k)
}
