//! Where stretches of several events are split, below and past the bits of a word.

use crate::notes::facts::Fact;
use second::derive::{cell, stretches};
use second::image::Grammar;

/// A split here or later has no bit in a word.
pub const WORD_BITS: usize = 64;

/// How a stretch of several events is split.
pub struct Stretch {
    i: usize,
    pub items: u32,
    pub firings: u32,
    /// Bit j is one if a rule fires at split j.
    splits: u128,
}

/// Of stretches of records that are longer than a word has bits.
pub const OF_SPLITS: [Fact<Stretch>; 3] = [
    ("split at 64 alone", |s| {
        s.could_be_below() && s.splits == 1 << WORD_BITS
    }),
    ("split past a word's bits alone", |s| {
        s.could_be_below() && !s.split_below() && s.split_past()
    }),
    ("split below and past a word's bits", |s| {
        s.split_below() && s.split_past()
    }),
];

impl Stretch {
    /// Whether there is room for a split below.
    fn could_be_below(&self) -> bool {
        self.i + 1 < WORD_BITS
    }

    fn split_below(&self) -> bool {
        self.splits as u64 != 0
    }

    fn split_past(&self) -> bool {
        self.splits >> WORD_BITS != 0
    }
}

/// The stretches of several events with an item, and how each is split by the rules.
pub fn stretches_with_items(grammar: &Grammar, n: usize, chart: &[u64]) -> Vec<Stretch> {
    // Bit j: whether the symbol derives (i, j), and whether it derives (j, k).
    let mut from = vec![vec![0_u128; n]; grammar.symbols];
    let mut to = vec![vec![0_u128; n + 1]; grammar.symbols];
    for (i, k) in stretches(n) {
        for a in (0..grammar.symbols).filter(|a| chart[cell(i, k)] >> a & 1 == 1) {
            from[a][i] |= 1 << k;
            to[a][k] |= 1 << i;
        }
    }
    let of_several = stretches(n).filter(|&(i, k)| k > i + 1 && chart[cell(i, k)] != 0);
    let split = |(i, k): (usize, usize)| {
        let rules = grammar.pair_rules.iter();
        let splits: Vec<_> = rules.map(|r| from[r.left][i] & to[r.right][k]).collect();
        Stretch {
            i,
            items: chart[cell(i, k)].count_ones(),
            firings: splits.iter().map(|splits| splits.count_ones()).sum(),
            splits: splits.iter().fold(0, |all, splits| all | splits),
        }
    };
    of_several.map(split).collect()
}
