//! Dead symbols: those that derive no list of events, and those that can't be reached.

use crate::image::Grammar;

/// The length of the shortest list of one or more events that each symbol derives, if it derives
/// one: 1 by an event rule, and that of both parts together by a pair rule.
///
/// A symbol's first length is at most twice that of one found before it, and later ones are
/// smaller. So 64 symbols keep each below 2^64, and a sum of two is far from the largest u128.
pub fn shortest(grammar: &Grammar) -> Vec<Option<u128>> {
    let mut shortest: Vec<Option<u128>> = vec![None; grammar.symbols];
    for rule in &grammar.event_rules {
        shortest[rule.symbol] = Some(1);
    }
    let mut changed = true;
    while changed {
        changed = false;
        for rule in &grammar.pair_rules {
            let Some((left, right)) = shortest[rule.left].zip(shortest[rule.right]) else {
                continue;
            };
            let known = &mut shortest[rule.symbol];
            if known.is_none_or(|length| left + right < length) {
                *known = Some(left + right);
                changed = true;
            }
        }
    }
    shortest
}

/// The symbols that derive no list of one or more events.
pub fn barren(grammar: &Grammar) -> Vec<usize> {
    let shortest = shortest(grammar);
    let symbols = 0..grammar.symbols;
    symbols.filter(|&a| shortest[a].is_none()).collect()
}

/// The symbols that no way leads to from symbol 0, where a pair rule leads from its symbol to both
/// of its parts.
pub fn unreached(grammar: &Grammar) -> Vec<usize> {
    let mut reached = vec![false; grammar.symbols];
    let mut open = vec![0];
    while let Some(a) = open.pop() {
        if !reached[a] {
            reached[a] = true;
            let rules = grammar.pair_rules_of(a);
            open.extend(rules.flat_map(|(_, rule)| [rule.left, rule.right]));
        }
    }
    let symbols = 0..grammar.symbols;
    symbols.filter(|&a| !reached[a]).collect()
}

/// The symbols that are one or the other, or both, in their order.
pub fn dead(grammar: &Grammar) -> Vec<usize> {
    let (barren, unreached) = (barren(grammar), unreached(grammar));
    let symbols = 0..grammar.symbols;
    symbols
        .filter(|a| barren.contains(a) || unreached.contains(a))
        .collect()
}
