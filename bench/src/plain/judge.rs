//! `judge`: a loop over all pair rules at each split.

use super::{cell, low_first, test, Grammar};
use crate::answers::{Judged, Refusal};
use crate::sizes::cells;

/// The pair rules, a column for each part, every symbol as the word of its one bit: of the plain
/// forms tried on aarch64 (records or columns, numbers of 8, 32 or 64 bits or such words, with and
/// without a branch) this one gives the fastest loop, which the compiler turns into vector code.
pub struct Columns {
    symbol: Vec<u64>,
    left: Vec<u64>,
    right: Vec<u64>,
}

/// A cell's word and the matches so far.
pub struct Fired {
    pub word: u64,
    pub count: u64,
}

/// The pair rules, in the form in which they are tried.
pub trait Pairs {
    fn new(pairs: &[u8]) -> Self;

    /// Adds what fires over a left and a right cell.
    fn fire(&self, left: u64, right: u64, fired: &mut Fired);
}

pub fn judge(image: &[u8], events: &[u16], chart: &mut [u64]) -> Judged {
    judge_by::<Columns>(image, events, chart)
}

/// Refusals 1 to 9, or the chart, the verdict, the items and the firings.
pub fn judge_by<P: Pairs>(image: &[u8], events: &[u16], chart: &mut [u64]) -> Judged {
    let grammar = match test(image, events) {
        Ok(grammar) => grammar,
        Err(refusal) => return Judged::from(refusal),
    };
    let n = events.len();
    if chart.len() < cells(n) {
        return Judged::from(Refusal::from(9));
    }
    let firings = fill::<P>(&grammar, events, chart);
    let used = &chart[..cells(n)];
    Judged {
        refusal: 0.into(),
        admitted: match n {
            0 => grammar.quiet,
            n => chart[cell(0, n)] & 1 == 1,
        },
        items: used.iter().map(|w| w.count_ones() as u64).sum(),
        firings,
    }
}

/// Fills the chart column by column and counts the firings.
fn fill<P: Pairs>(grammar: &Grammar, events: &[u16], chart: &mut [u64]) -> u64 {
    let pairs = P::new(grammar.pairs);
    let of_column = |(q, &event)| fill_column(grammar, &pairs, event, q, chart);
    events.iter().enumerate().map(of_column).sum()
}

/// Fills the column of an event that has q before it, from its last cell down, and counts its
/// firings.
///
/// It becomes a part of its callers, which saves short records up to a tenth of their time.
#[inline(always)]
pub fn fill_column(
    grammar: &Grammar,
    pairs: &impl Pairs,
    event: u16,
    q: usize,
    chart: &mut [u64],
) -> u64 {
    let leaf = fire_leaves(grammar.leaves, event);
    chart[cell(q, q + 1)] = leaf.word;
    let mut firings = leaf.count;
    for i in (0..q).rev() {
        let f = fill_cell(pairs, chart, i, q + 1);
        chart[cell(i, q + 1)] = f.word;
        firings += f.count;
    }
    firings
}

fn fire_leaves(leaves: &[u8], event: u16) -> Fired {
    let mut f = Fired { word: 0, count: 0 };
    for r in leaves.chunks_exact(3) {
        let h = (low_first(r, 1) == event) as u64;
        f.word |= h << r[0];
        f.count += h;
    }
    f
}

fn fill_cell(pairs: &impl Pairs, chart: &[u64], i: usize, k: usize) -> Fired {
    let mut f = Fired { word: 0, count: 0 };
    for j in i + 1..k {
        pairs.fire(chart[cell(i, j)], chart[cell(j, k)], &mut f);
    }
    f
}

impl Pairs for Columns {
    fn new(pairs: &[u8]) -> Self {
        let part = |at| pairs.iter().skip(at).step_by(3).map(|&s| 1 << s);
        Columns {
            symbol: part(0).collect(),
            left: part(1).collect(),
            right: part(2).collect(),
        }
    }

    /// Tries all rules. `&` and the product leave no branch, which would keep the compiler from
    /// vector code.
    fn fire(&self, left: u64, right: u64, f: &mut Fired) {
        for ((s, l), r) in self.symbol.iter().zip(&self.left).zip(&self.right) {
            let h = ((left & l != 0) & (right & r != 0)) as u64;
            f.word |= h * s;
            f.count += h;
        }
    }
}
