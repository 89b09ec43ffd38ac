//! `number`: fills the table, follows the script and adds up what comes before it.

use super::check::is_reading;
use super::count::{fill, test_table};
use super::filled::Filled;
use super::test;
use crate::answers::{Numbered, Refusal};
use crate::sizes::{script_words, LIMIT};

/// Refusals 1 to 8 and 10, or with the table 12, 13 or the number of the reading.
pub fn number(image: &[u8], events: &[u16], script: &[u16], table: &mut [u32]) -> Numbered {
    match number_or_refuse(image, events, script, table) {
        Ok(reading) => Numbered {
            refusal: 0.into(),
            reading,
        },
        Err(refusal) => Numbered::from(refusal),
    }
}

fn number_or_refuse(
    image: &[u8],
    events: &[u16],
    script: &[u16],
    table: &mut [u32],
) -> Result<u32, Refusal> {
    let grammar = test(image, events)?;
    test_table(&grammar, events, table)?;
    fill(&grammar, events, table);
    if !is_reading(&grammar, events, script) {
        return Err(12.into());
    }
    let filled = Filled {
        grammar,
        events,
        table,
    };
    match filled.earlier(0, events.len(), script) {
        LIMIT => Err(13.into()),
        number => Ok(number as u32),
    }
}

impl Filled<'_> {
    /// How many derivations over the stretch come before the one with this script, cut off at the
    /// limit. A leaf is the only one of its symbol, and the empty script is the only reading.
    fn earlier(&self, i: usize, k: usize, script: &[u16]) -> u64 {
        if k <= i + 1 {
            return 0;
        }
        let pair = script[0] as usize - self.grammar.leaves.len() / 3;
        let split = script[1] as usize;
        let (left, right) = script[2..].split_at(script_words(split - i));
        let rights = self.ways(self.grammar.pairs[3 * pair + 2], split, k);
        let by_choice = self.earlier_choices(pair, i, split, k);
        let by_left = LIMIT.min(self.earlier(i, split, left) * rights);
        LIMIT.min(by_choice + by_left + self.earlier(split, k, right))
    }

    /// How many begin with an earlier rule of the symbol, or with this rule and an earlier split.
    fn earlier_choices(&self, pair: usize, i: usize, split: usize, k: usize) -> u64 {
        let (earlier, rest) = self.grammar.pairs.split_at(3 * pair);
        let rule = &rest[..3];
        // The rules of a symbol stand next to each other.
        let of_symbol = earlier.rchunks_exact(3).take_while(|r| r[0] == rule[0]);
        let by_rule: u64 = of_symbol.map(|r| self.ways_before(r, i, k, k)).sum();
        by_rule + self.ways_before(rule, i, split, k)
    }

    /// How many begin with a rule and a split before `end`. What each split adds is cut off, so that
    /// no sum is too large for 64 bits.
    fn ways_before(&self, rule: &[u8], i: usize, end: usize, k: usize) -> u64 {
        (i + 1..end)
            .map(|split| LIMIT.min(self.ways_by(rule, i, split, k)))
            .sum()
    }
}
