//! What is told apart among images by their symbols, dead or hard to find alive.

use crate::notes::remarks::Remark;
use second::drawn::{TurnsInto, SORTS};
use second::image::{Grammar, PairRule};
use second::live::{dead, unreached};

/// The last four need about as many passes as there can be, whoever goes through the rules.
pub const OF_SYMBOLS: [Remark<Grammar>; 10] = [
    ("a dead symbol", &[7], |g| !dead(g).is_empty()),
    ("several dead symbols", &[15], |g| dead(g).len() > 1),
    ("no other symbol, no rule", &[15], |g| {
        g.symbols == 1 && g.pair_rules.is_empty()
    }),
    ("no other symbol, itself alone", &[15], |g| {
        g.symbols == 1 && !g.pair_rules.is_empty()
    }),
    ("symbol 0 of several alone", &[15], |g| {
        g.symbols > 1 && dead(g) == [0]
    }),
    ("symbol 63 alone", &[15], |g| dead(g) == [63]),
    ("62 passes to derive, rising", &[0], |g| {
        passes_to_derive(g, &g.pair_rules) >= 62
    }),
    ("62 passes to derive, falling", &[0], |g| {
        passes_to_derive(g, &falling(g)) >= 62
    }),
    ("62 passes to reach, rising", &[0], |g| {
        passes_to_reach(g, &g.pair_rules) >= 62
    }),
    ("62 passes to reach, falling", &[0], |g| {
        passes_to_reach(g, &falling(g)) >= 62
    }),
];

fn falling(grammar: &Grammar) -> Vec<PairRule> {
    grammar.pair_rules.iter().rev().copied().collect()
}

fn passes_to_derive(grammar: &Grammar, rules: &[PairRule]) -> usize {
    let mut derives = vec![false; grammar.symbols];
    for rule in &grammar.event_rules {
        derives[rule.symbol] = true;
    }
    passes(rules, derives, |derives, rule| {
        derives[rule.symbol] |= derives[rule.left] && derives[rule.right];
    })
}

fn passes_to_reach(grammar: &Grammar, rules: &[PairRule]) -> usize {
    let mut reached = vec![false; grammar.symbols];
    reached[0] = true;
    passes(rules, reached, |reached, rule| {
        reached[rule.left] |= reached[rule.symbol];
        reached[rule.right] |= reached[rule.symbol];
    })
}

/// How many passes over the rules find something more, if each uses what is found already.
fn passes(rules: &[PairRule], mut found: Vec<bool>, find: fn(&mut [bool], &PairRule)) -> usize {
    let mut passes = 0;
    loop {
        let before = found.clone();
        for rule in rules {
            find(&mut found, rule);
        }
        if found == before {
            return passes;
        }
        passes += 1;
    }
}

/// How the one dead symbol among live ones is dead, if there is just one.
pub fn sort_of_dead(grammar: &Grammar) -> Option<&'static str> {
    let dead = dead(grammar);
    let symbol = match dead[..] {
        [symbol] if grammar.symbols > 1 => symbol,
        _ => return None,
    };
    let reached = !unreached(grammar).contains(&symbol);
    let into_event = grammar.event_rules_of(symbol).next().is_some();
    let pairs = grammar.pair_rules_of(symbol);
    let into_itself: Vec<_> = pairs
        .map(|(_, rule)| [rule.left, rule.right].contains(&symbol))
        .collect();
    let turns: Vec<_> = [
        (into_event, TurnsInto::Event),
        (into_itself.contains(&false), TurnsInto::Others),
        (into_itself.contains(&true), TurnsInto::Itself),
    ]
    .into_iter()
    .filter_map(|(does, into)| does.then_some(into))
    .collect();
    let mut sorts = SORTS.iter();
    let sort = sorts.find(|sort| sort.1 == reached && sort.2 == turns)?;
    Some(sort.0)
}
