//! What a grammar derives from a record: which symbols over which stretches, in how many ways, and
//! how often a rule fires. (i, k) is the stretch of events i + 1 to k.

use crate::image::{EventRule, Grammar};

/// The number of cell (i, k).
pub fn cell(i: usize, k: usize) -> usize {
    k * (k - 1) / 2 + i
}

/// How many cells a record of `n` events has.
pub fn cells(n: usize) -> usize {
    n * (n + 1) / 2
}

/// Every stretch of `n` events, the shorter before the longer, which are made up of them.
pub fn stretches(n: usize) -> impl Iterator<Item = (usize, usize)> {
    (1..=n).flat_map(move |length| (0..=n - length).map(move |i| (i, i + length)))
}

/// One word for each symbol over each stretch, in the order of the count table.
pub struct Table<T> {
    symbols: usize,
    pub words: Vec<T>,
}

impl<T: Copy> Table<T> {
    fn filled(word: T, symbols: usize, n: usize) -> Self {
        let words = vec![word; cells(n) * symbols];
        Table { symbols, words }
    }

    /// The words of all symbols over one stretch.
    fn over(&self, i: usize, k: usize) -> &[T] {
        let first = cell(i, k) * self.symbols;
        &self.words[first..first + self.symbols]
    }

    fn over_mut(&mut self, i: usize, k: usize) -> &mut [T] {
        let first = cell(i, k) * self.symbols;
        &mut self.words[first..first + self.symbols]
    }

    pub fn get(&self, a: usize, i: usize, k: usize) -> T {
        self.over(i, k)[a]
    }

    fn set(&mut self, a: usize, i: usize, k: usize, word: T) {
        self.over_mut(i, k)[a] = word;
    }
}

/// Whether the rule turns its symbol into event i + 1 and that is the whole of the stretch.
pub fn matches(rule: &EventRule, events: &[u16], i: usize, k: usize) -> bool {
    k == i + 1 && rule.event == events[i]
}

/// Whether [A, i, k] is derivable, for each symbol A and each stretch.
pub fn derivable(grammar: &Grammar, events: &[u16]) -> Table<bool> {
    let mut known = Table::filled(false, grammar.symbols, events.len());
    for (i, k) in stretches(events.len()) {
        for rule in &grammar.event_rules {
            if matches(rule, events, i, k) {
                known.set(rule.symbol, i, k, true);
            }
        }
        for rule in &grammar.pair_rules {
            let both = |j| known.get(rule.left, i, j) && known.get(rule.right, j, k);
            if (i + 1..k).any(both) {
                known.set(rule.symbol, i, k, true);
            }
        }
    }
    known
}

/// The number of derivations of [A, i, k], for each symbol A and each stretch, cut at the largest
/// u64.
///
/// Let M be that largest number. Each word is the smaller of M and the true number. For single
/// events that is plain; take it for the premises of a longer stretch. A product of two words of
/// which one is 0 is 0, and so is the true product. If neither is 0 and one was cut, the true
/// product is M or more and the cut one is M. If none was cut, the product is the true one until it
/// is cut itself. The same goes for sums. As M is above 4,294,967,295, the smaller of that and the
/// word is the smaller of that and the true number.
pub fn counts(grammar: &Grammar, events: &[u16]) -> Table<u64> {
    let mut known = Table::filled(0, grammar.symbols, events.len());
    for (i, k) in stretches(events.len()) {
        let mut sums = vec![0; grammar.symbols];
        let mut add = |a: usize, count: u64| sums[a] = u64::saturating_add(sums[a], count);
        for rule in &grammar.event_rules {
            add(rule.symbol, matches(rule, events, i, k).into());
        }
        // Split by split, since the words of its two cells stand together: large tables are slow.
        for j in i + 1..k {
            let (lefts, rights) = (known.over(i, j), known.over(j, k));
            for rule in &grammar.pair_rules {
                let (left, right) = (lefts[rule.left], rights[rule.right]);
                add(rule.symbol, u64::saturating_mul(left, right));
            }
        }
        known.over_mut(i, k).copy_from_slice(&sums);
    }
    known
}

/// The event rules that match, counted at each place, and the quadruples (pair rule, i, j, k) whose
/// two premises are derivable.
pub fn firings(grammar: &Grammar, events: &[u16], derivable: &Table<bool>) -> u64 {
    let mut firings = 0;
    for event in events {
        let matching = grammar.event_rules.iter().filter(|r| r.event == *event);
        firings += matching.count() as u64;
    }
    for (i, k) in stretches(events.len()) {
        for j in i + 1..k {
            let (lefts, rights) = (derivable.over(i, j), derivable.over(j, k));
            for rule in &grammar.pair_rules {
                firings += u64::from(lefts[rule.left] && rights[rule.right]);
            }
        }
    }
    firings
}
