//! `reading`: fills the table and goes down from the whole record by its numbers.

use super::count::{fill, test_table};
use super::filled::Filled;
use super::{low_first, test};
use crate::answers::Refusal;
use crate::sizes::{script_words, LIMIT};

/// Refusals 1 to 8 and 10 to 13, or 0 with the table and the script of reading number k.
pub fn reading(
    image: &[u8],
    events: &[u16],
    k: u32,
    table: &mut [u32],
    script: &mut [u16],
) -> Refusal {
    match read_or_refuse(image, events, k, table, script) {
        Ok(()) => 0.into(),
        Err(refusal) => refusal,
    }
}

fn read_or_refuse(
    image: &[u8],
    events: &[u16],
    k: u32,
    table: &mut [u32],
    script: &mut [u16],
) -> Result<(), Refusal> {
    let unranking = fill_or_refuse(image, events, k, 1, table, script.len())?;
    let n = events.len();
    if n > 0 {
        unranking.write(0, 0, n, k as u64, &mut script[..script_words(n)]);
    }
    Ok(())
}

/// Refusals 1 to 8 and 10 to 13 of reading number k, with a room that is to hold so many scripts; or
/// the table.
pub fn fill_or_refuse<'a>(
    image: &'a [u8],
    events: &'a [u16],
    k: u32,
    scripts: u32,
    table: &'a mut [u32],
    room: usize,
) -> Result<Unranking<'a>, Refusal> {
    let grammar = test(image, events)?;
    test_table(&grammar, events, table)?;
    if room < scripts as usize * script_words(events.len()) {
        return Err(11.into());
    }
    let total = fill(&grammar, events, table);
    if k >= total {
        let number = if total as u64 == LIMIT { 13 } else { 12 };
        return Err(number.into());
    }
    Ok(Unranking::new(Filled {
        grammar,
        events,
        table,
    }))
}

/// A table that is filled, and the rules.
pub struct Unranking<'a> {
    pub filled: Filled<'a>,
    pub leaves: &'a [[u8; 3]],
    pub pairs: &'a [[u8; 3]],
    /// The place of each symbol's first rule, of those that have any; its others stand behind it.
    first_leaves: [u16; 64],
    first_pairs: [u16; 64],
}

/// The derivations over a stretch that begin with one pair rule and split.
pub struct Choice {
    /// The rule's place among the pair rules.
    pair: usize,
    split: usize,
    /// How many of this choice come before the one wanted.
    number: u64,
}

impl<'a> Unranking<'a> {
    fn new(filled: Filled<'a>) -> Self {
        let (leaves, _) = filled.grammar.leaves.as_chunks();
        let (pairs, _) = filled.grammar.pairs.as_chunks();
        Unranking {
            filled,
            leaves,
            pairs,
            first_leaves: firsts(leaves),
            first_pairs: firsts(pairs),
        }
    }

    /// Writes the script of the derivation with this number among those of the symbol.
    pub fn write(&self, symbol: u8, i: usize, k: usize, number: u64, script: &mut [u16]) {
        if k == i + 1 {
            script.copy_from_slice(&[self.leaf(symbol, i) as u16, k as u16]);
            return;
        }
        let first = self.first_pairs[symbol as usize] as usize;
        let choice = self
            .choose(first, i + 1, i, k, number)
            .expect("the table counts more derivations than the number");
        self.write_chosen(&choice, i, k, script);
    }

    /// The same by a choice. A part whose count is cut off at the limit has more derivations than any
    /// number asks for: dividing by the limit gives 0 and leaves the number, as dividing by the true
    /// count would.
    ///
    /// This and `choose` become parts of `write`, which saves two calls for each node and a quarter of
    /// its time.
    #[inline(always)]
    pub fn write_chosen(&self, choice: &Choice, i: usize, k: usize, script: &mut [u16]) {
        let Choice { pair, split, .. } = *choice;
        let rule = &self.pairs[pair];
        script[0] = (self.leaves.len() + pair) as u16;
        script[1] = split as u16;
        let rights = self.filled.ways(rule[2], split, k);
        let (left, right) = script[2..].split_at_mut(script_words(split - i));
        self.write(rule[1], i, split, choice.number / rights, left);
        self.write(rule[2], split, k, choice.number % rights, right);
    }

    /// The number of the event rule, which is there where the table says 1.
    fn leaf(&self, symbol: u8, i: usize) -> usize {
        let event = self.filled.events[i];
        let first = self.first_leaves[symbol as usize] as usize;
        let mut leaves = self.leaves[first..].iter();
        let place = leaves.position(|r| low_first(r, 1) == event);
        first + place.expect("the table counts this leaf")
    }

    /// The choice that a number falls in, counted from a pair rule and a split of it on: choices come
    /// in the order of rule and then of split.
    #[inline(always)]
    pub fn choose(
        &self,
        first: usize,
        mut from: usize,
        i: usize,
        k: usize,
        mut number: u64,
    ) -> Option<Choice> {
        let rules = &self.pairs[first..];
        let symbol = rules[0][0];
        for (pair, r) in (first..).zip(rules.iter().take_while(|r| r[0] == symbol)) {
            for split in from..k {
                let ways = self.filled.ways_by(r, i, split, k);
                if number < ways {
                    return Some(Choice {
                        pair,
                        split,
                        number,
                    });
                }
                number -= ways;
            }
            from = i + 1;
        }
        None
    }
}

fn firsts(rules: &[[u8; 3]]) -> [u16; 64] {
    let mut firsts = [0; 64];
    for (place, rule) in rules.iter().enumerate().rev() {
        firsts[rule[0] as usize] = place as u16;
    }
    firsts
}
