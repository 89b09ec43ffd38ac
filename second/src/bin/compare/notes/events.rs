//! Events of no rule that are one bit away from an event of a rule.

use second::image::Grammar;
use std::ops::Range;

pub const EVENT_BITS: Range<u16> = 0..16;

pub fn but_for_bit(bit: u16) -> String {
    format!("an event of no rule but for bit {bit}")
}

/// What is told where an event of no rule would be one of a rule if one bit were changed.
pub fn but_for_bits(grammar: &Grammar, events: &[u16]) -> Vec<String> {
    let known = |event| symbols_of(grammar, event) > 0;
    let but_for = |bit: &u16| {
        let mut events = events.iter();
        events.any(|&event| !known(event) && known(event ^ 1 << bit))
    };
    EVENT_BITS.filter(but_for).map(but_for_bit).collect()
}

/// How many symbols turn into the event.
pub fn symbols_of(grammar: &Grammar, event: u16) -> usize {
    let rules = grammar.event_rules.iter();
    rules.filter(|rule| rule.event == event).count()
}
