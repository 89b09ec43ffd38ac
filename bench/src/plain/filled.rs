//! What `reading`, `page` and `number` share: the numbers of a table that is filled.

use super::{cell, count, Grammar};

/// A record and its table.
pub struct Filled<'a> {
    pub grammar: Grammar<'a>,
    pub events: &'a [u16],
    pub table: &'a [u32],
}

impl Filled<'_> {
    /// The readings of the record.
    pub fn total(&self) -> u32 {
        count::total(&self.grammar, self.events, self.table)
    }

    /// The derivations of a symbol over a stretch.
    pub fn ways(&self, symbol: u8, i: usize, k: usize) -> u64 {
        self.table[cell(i, k) * self.grammar.symbols + symbol as usize] as u64
    }

    /// The derivations over a stretch that begin with a pair rule and a split.
    pub fn ways_by(&self, rule: &[u8], i: usize, split: usize, k: usize) -> u64 {
        self.ways(rule[1], i, split) * self.ways(rule[2], split, k)
    }
}
