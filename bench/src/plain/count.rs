//! `count`: for each pair rule of a cell, a loop over the splits.

use super::{cell, low_first, test, Grammar};
use crate::answers::{Counted, Refusal};
use crate::sizes::{cells, LIMIT};

/// Fills the table and gives the total.
type Fill = fn(&Grammar, &[u16], &mut [u32]) -> u32;

pub fn count(image: &[u8], events: &[u16], table: &mut [u32]) -> Counted {
    count_by(fill, image, events, table)
}

/// Refusals 1 to 8 and 10, or the table and the total.
pub fn count_by(fill: Fill, image: &[u8], events: &[u16], table: &mut [u32]) -> Counted {
    match count_or_refuse(fill, image, events, table) {
        Ok(total) => Counted {
            refusal: 0.into(),
            total,
        },
        Err(refusal) => Counted::from(refusal),
    }
}

fn count_or_refuse(
    fill: Fill,
    image: &[u8],
    events: &[u16],
    table: &mut [u32],
) -> Result<u32, Refusal> {
    let grammar = test(image, events)?;
    test_table(&grammar, events, table)?;
    Ok(fill(&grammar, events, table))
}

/// Refusal 10.
pub fn test_table(grammar: &Grammar, events: &[u16], table: &[u32]) -> Result<(), Refusal> {
    if table.len() < grammar.symbols * cells(events.len()) {
        return Err(10.into());
    }
    Ok(())
}

/// Fills the table column by column, each from its last cell down, and gives the total.
pub fn fill(grammar: &Grammar, events: &[u16], table: &mut [u32]) -> u32 {
    for (q, &event) in events.iter().enumerate() {
        let own = &mut table[cell(q, q + 1) * grammar.symbols..][..grammar.symbols];
        fill_leaf(grammar.leaves, event, own);
        for i in (0..q).rev() {
            fill_cell(grammar, table, i, q + 1);
        }
    }
    total(grammar, events, table)
}

/// The total, from a table that is filled.
pub fn total(grammar: &Grammar, events: &[u16], table: &[u32]) -> u32 {
    match events.len() {
        0 => grammar.quiet as u32,
        n => table[cell(0, n) * grammar.symbols],
    }
}

/// No rule stands twice, so that a symbol turns into an event in one way or in none.
pub fn fill_leaf(leaves: &[u8], event: u16, own: &mut [u32]) {
    own.fill(0);
    for r in leaves.chunks_exact(3) {
        if low_first(r, 1) == event {
            own[r[0] as usize] = 1;
        }
    }
}

/// In the table the left parts of the stretch stand before its cell, each further from the one
/// before it, and the right parts behind it without a gap. With the splits outside, the rules
/// inside and a sum for each symbol on the stack it took 1.2 to 2.4 times as long on x86-64: each
/// step loads and stores a sum there, and the compiler turns the limit into a jump.
fn fill_cell(grammar: &Grammar, table: &mut [u32], i: usize, k: usize) {
    let symbols = grammar.symbols;
    let (lefts, rest) = table.split_at_mut(cell(i, k) * symbols);
    let (own, rights) = rest.split_at_mut(symbols);
    let rights = &rights[..(k - i - 1) * symbols];
    own.fill(0);
    for rule in grammar.pairs.chunks_exact(3) {
        let [symbol, left, right] = [rule[0], rule[1], rule[2]].map(usize::from);
        let mut at = cell(i, i + 1) * symbols + left;
        let mut sum = 0;
        for (j, row) in (i + 1..k).zip(rights.chunks_exact(symbols)) {
            sum += LIMIT.min(lefts[at] as u64 * row[right] as u64);
            at += j * symbols;
        }
        own[symbol] = LIMIT.min(own[symbol] as u64 + sum) as u32;
    }
}
