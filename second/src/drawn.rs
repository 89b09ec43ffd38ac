//! Random version 1 images for the tests and the comparisons: any, live ones, and such as have one
//! dead symbol.

use crate::examples::{image, image_of};
use crate::image::{shown, EventRule, Grammar, PairRule};
use crate::live::{barren, unreached};
use crate::random::Random;
use TurnsInto::{Event, Itself, Others};

pub fn any_symbol(random: &mut Random, symbols: usize) -> u8 {
    random.below(symbols) as u8
}

/// At most so many rules; of the same drawn twice one is kept. Other events are rare.
pub fn any_image(
    random: &mut Random,
    symbols: usize,
    kinds: &[u16],
    event_rules: usize,
    pair_rules: usize,
) -> Vec<u8> {
    let any_event = |random: &mut Random| match random.below(8) {
        0 => random.word() as u16,
        _ => random.one_of(kinds),
    };
    let event_rules: Vec<_> = (0..event_rules)
        .map(|_| (any_symbol(random, symbols), any_event(random)))
        .collect();
    let pair_rules: Vec<_> = (0..pair_rules)
        .map(|_| [0; 3].map(|_| any_symbol(random, symbols)))
        .map(|[a, b, c]| (a, b, c))
        .collect();
    image(symbols as u8, &event_rules, &pair_rules)
}

/// The same, and the rules that it takes so that no symbol is dead: up to N more of each kind, for
/// which there must be room. More rules make no symbol dead.
pub fn live_image(
    random: &mut Random,
    symbols: usize,
    kinds: &[u16],
    event_rules: usize,
    pair_rules: usize,
) -> Vec<u8> {
    let image = any_image(random, symbols, kinds, event_rules, pair_rules);
    let grammar = shown(&image).expect("symbols and rules within their limits");
    image_of(&enlivened(random, grammar, kinds))
}

/// The grammar with the rules that it takes so that no symbol is dead; they turn symbols into these
/// events.
pub fn enlivened(random: &mut Random, mut grammar: Grammar, kinds: &[u16]) -> Grammar {
    while let Some(symbol) = any_of(random, &barren(&grammar)) {
        let event = random.one_of(kinds);
        grammar.event_rules.push(EventRule { symbol, event });
    }
    while let Some(symbol) = any_of(random, &unreached(&grammar)) {
        let rule = way_to(random, &grammar, symbol);
        grammar.pair_rules.push(rule);
    }
    grammar
}

fn any_of(random: &mut Random, symbols: &[usize]) -> Option<usize> {
    (!symbols.is_empty()).then(|| random.one_of(symbols))
}

/// A rule that leads from a reached symbol to this one, which isn't reached yet.
fn way_to(random: &mut Random, grammar: &Grammar, symbol: usize) -> PairRule {
    let unreached = unreached(grammar);
    let symbols = 0..grammar.symbols;
    let reached: Vec<_> = symbols.filter(|a| !unreached.contains(a)).collect();
    let other = random.below(grammar.symbols);
    let parts = random.one_of(&[[symbol, other], [other, symbol]]);
    pair_rule(random.one_of(&reached), parts)
}

pub fn pair_rule(symbol: usize, [left, right]: [usize; 2]) -> PairRule {
    PairRule {
        symbol,
        left,
        right,
    }
}

/// The grammar with one more symbol, which no rule has; those from there up are numbered one higher.
pub fn with_symbol(mut grammar: Grammar, symbol: usize) -> Grammar {
    let renumbered = |a: usize| a + usize::from(a >= symbol);
    grammar.symbols += 1;
    for rule in &mut grammar.event_rules {
        rule.symbol = renumbered(rule.symbol);
    }
    for rule in &mut grammar.pair_rules {
        rule.symbol = renumbered(rule.symbol);
        (rule.left, rule.right) = (renumbered(rule.left), renumbered(rule.right));
    }
    grammar
}

/// What one symbol among live ones turns into, by one rule.
#[derive(Clone, Copy, Debug, PartialEq)]
pub enum TurnsInto {
    Event,
    /// A pair of live symbols.
    Others,
    /// A pair that has the symbol itself in it.
    Itself,
}

/// How one symbol among live ones is dead: a name, whether another leads to it, and its own rules.
pub type Sort = (&'static str, bool, &'static [TurnsInto]);

pub const SORTS: [Sort; 7] = [
    ("a reached symbol without rules", true, &[]),
    ("a reached symbol of itself alone", true, &[Itself]),
    ("an island of an event", false, &[Event]),
    ("an island of others", false, &[Others]),
    ("an island of an event and itself", false, &[Event, Itself]),
    ("an island without rules", false, &[]),
    ("an island of itself alone", false, &[Itself]),
];

/// Whether symbol 0 of several can be the only dead one in this way: its rules must reach the others.
pub fn start_can_be((_, reached, turns): Sort) -> bool {
    reached && !turns.is_empty()
}

/// The live grammar with one more symbol, which alone is dead; that is 0 only where it can be.
pub fn with_dead(random: &mut Random, live: Grammar, sort: Sort, dead: usize) -> Vec<u8> {
    let (_, reached, turns) = sort;
    let mut grammar = with_symbol(live, dead);
    let symbols = grammar.symbols;
    if reached && dead != 0 {
        let rule = way_to(random, &grammar, dead);
        grammar.pair_rules.push(rule);
    }
    let symbol = dead;
    for into in turns {
        match into {
            Event => {
                let rule = random.one_of(&grammar.event_rules);
                grammar.event_rules.push(EventRule { symbol, ..rule });
            }
            Others => {
                let parts = [0; 2].map(|_| any_but(random, dead, symbols));
                grammar.pair_rules.push(pair_rule(symbol, parts));
            }
            Itself => {
                let parts = with_itself(random, dead, symbols);
                grammar.pair_rules.push(pair_rule(symbol, parts));
            }
        }
    }
    image_of(&grammar)
}

/// A symbol that isn't this one.
fn any_but(random: &mut Random, symbol: usize, symbols: usize) -> usize {
    (symbol + random.within(1, symbols - 1)) % symbols
}

/// Parts of which one at least is the symbol itself. Those of symbol 0 lead to 1, which was 0 before
/// and leads to all others.
fn with_itself(random: &mut Random, symbol: usize, symbols: usize) -> [usize; 2] {
    if symbol == 0 {
        return random.one_of(&[[0, 1], [1, 0]]);
    }
    let other = any_but(random, symbol, symbols);
    random.one_of(&[[symbol, other], [other, symbol], [symbol, symbol]])
}
