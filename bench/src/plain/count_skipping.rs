//! `count` for sparse tables: a split with an empty cell is skipped, and at the others only the
//! rules are followed whose two symbols have a count there.

use super::by_left::{ByLeft, Ones};
use super::count::{count_by, fill_leaf, total};
use super::{cell, Grammar};
use crate::answers::Counted;
use crate::sizes::{cells, LIMIT};

pub fn count_skipping(image: &[u8], events: &[u16], table: &mut [u32]) -> Counted {
    count_by(fill, image, events, table)
}

fn fill(grammar: &Grammar, events: &[u16], table: &mut [u32]) -> u32 {
    let mut counts = Counts {
        symbols: grammar.symbols,
        pairs: ByLeft::new(grammar.pairs, usize::from),
        chart: vec![0; cells(events.len())],
        table,
    };
    for (q, &event) in events.iter().enumerate() {
        counts.fill_leaf(grammar.leaves, event, q);
        for i in (0..q).rev() {
            counts.fill_cell(i, q + 1);
        }
    }
    total(grammar, events, table)
}

struct Counts<'a> {
    symbols: usize,
    pairs: ByLeft<usize>,
    /// The symbols that have a count, of each cell.
    chart: Vec<u64>,
    table: &'a mut [u32],
}

impl Counts<'_> {
    fn row(&self, cell: usize) -> &[u32] {
        &self.table[cell * self.symbols..][..self.symbols]
    }

    fn row_mut(&mut self, cell: usize) -> &mut [u32] {
        &mut self.table[cell * self.symbols..][..self.symbols]
    }

    fn fill_leaf(&mut self, leaves: &[u8], event: u16, q: usize) {
        let own = self.row_mut(cell(q, q + 1));
        fill_leaf(leaves, event, own);
        let word = word_of(own.iter().map(|&count| count != 0));
        self.chart[cell(q, q + 1)] = word;
    }

    fn fill_cell(&mut self, i: usize, k: usize) {
        let sums = &mut [0; 64][..self.symbols];
        for j in i + 1..k {
            self.add_products(cell(i, j), cell(j, k), sums);
        }
        for (count, sum) in self.row_mut(cell(i, k)).iter_mut().zip(&*sums) {
            *count = LIMIT.min(*sum) as u32;
        }
        self.chart[cell(i, k)] = word_of(sums.iter().map(|&sum| sum != 0));
    }

    fn add_products(&self, left: usize, right: usize, sums: &mut [u64]) {
        let (in_left, in_right) = (self.chart[left], self.chart[right]);
        if in_left == 0 || in_right == 0 {
            return;
        }
        let (left, right) = (self.row(left), self.row(right));
        for symbol in Ones(in_left) {
            let count = left[symbol] as u64;
            for rule in self.pairs.of(symbol) {
                if in_right >> rule.right & 1 == 1 {
                    sums[rule.symbol] += LIMIT.min(count * right[rule.right] as u64);
                }
            }
        }
    }
}

fn word_of(bits: impl Iterator<Item = bool>) -> u64 {
    bits.enumerate()
        .fold(0, |word, (s, bit)| word | (bit as u64) << s)
}
