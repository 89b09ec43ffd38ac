//! Grammars all of whose symbols are alike, so that numbers of derivations are known without a
//! table: they are Catalan numbers times a power.

use crate::sizes::{script_words, LIMIT};

/// Every symbol turns into every event of the record by one rule, and has the same number of pair
/// rules, over any symbols.
#[derive(Clone, Copy)]
pub struct Alike {
    pub event_rules: u16,
    /// The pair rules of a symbol.
    pub pair_rules: u16,
}

/// The grammar CHAIN.
pub const CHAIN: Alike = Alike {
    event_rules: 1,
    pair_rules: 1,
};

/// The grammar of the record `full`.
pub const FULL: Alike = Alike {
    event_rules: 512,
    pair_rules: 4,
};

/// The trees with so many leaves, of two parts at each other node: the Catalan number of one less.
/// Where 128 bits don't hold them, the largest number stands for them: dividing before multiplying
/// leaves no step that is too large for 128 bits where its outcome isn't.
pub fn trees(leaves: usize) -> u128 {
    (1..leaves as u128).fold(1, |c, m| {
        let (times, parts) = (4 * m - 2, m + 1);
        let rest = c % parts * times / parts;
        (c / parts).saturating_mul(times).saturating_add(rest)
    })
}

/// A count as it is reported.
pub fn cut(count: u128) -> u64 {
    count.min(LIMIT as u128) as u64
}

impl Alike {
    /// The derivations of a symbol: trees with a pair rule at each node that isn't a leaf. As
    /// with `trees`, the largest number stands for those that 128 bits don't hold.
    pub fn ways(&self, events: usize) -> u128 {
        let choices = (self.pair_rules as u128).saturating_pow(events as u32 - 1);
        trees(events).saturating_mul(choices)
    }

    /// The script of a symbol's last derivation over the first events of a record: by its last rule
    /// and at the last split, so that the right part is a leaf.
    pub fn last(&self, image: &[u8], symbol: u8, events: &[u16]) -> Vec<u16> {
        if events.len() == 1 {
            return leaf(image, symbol, events).to_vec();
        }
        let rule = self.event_rules + self.pair_rules * (symbol as u16 + 1) - 1;
        let parts = &image[10 + 3 * rule as usize..][1..3];
        let split = events.len() - 1;
        let left = self.last(image, parts[0], &events[..split]);
        let right = leaf(image, parts[1], events);
        [&[rule, split as u16], &left[..], &right].concat()
    }

    /// The number of a script over a stretch from place `i`: how many come before it.
    pub fn number_of(&self, script: &[u16], i: usize) -> u128 {
        let &[rule, split, ref parts @ ..] = script else {
            panic!("a script has a node");
        };
        if parts.is_empty() {
            return 0;
        }
        let (j, k) = (split as usize, i + script.len().div_ceil(4));
        let with = |j: usize| self.ways(j - i).saturating_mul(self.ways(k - j));
        let add = |sum: u128, j: usize| sum.saturating_add(with(j));
        let of_a_rule = (i + 1..k).fold(0, add);
        let rules = (rule - self.event_rules) % self.pair_rules;
        let earlier = (i + 1..j).fold(of_a_rule.saturating_mul(rules as u128), add);
        let (left, right) = parts.split_at(script_words(j - i));
        let lefts = self.number_of(left, i).saturating_mul(self.ways(k - j));
        earlier
            .saturating_add(lefts)
            .saturating_add(self.number_of(right, j))
    }
}

/// The leaf of a symbol over the last of the first events of a record.
fn leaf(image: &[u8], symbol: u8, events: &[u16]) -> [u16; 2] {
    let place = events.len();
    let [low, high] = events[place - 1].to_le_bytes();
    let rule = image[10..]
        .chunks_exact(3)
        .position(|rule| rule == [symbol, low, high])
        .expect("every symbol turns into every event");
    [rule as u16, place as u16]
}
