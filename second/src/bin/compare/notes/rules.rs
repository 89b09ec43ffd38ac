//! What is told apart among images that are refused for a rule.

use crate::calls::side::Answer;
use crate::notes::remarks::Remark;
use second::image::shown;

/// Where an image is at fault that is refused with 6 or 7.
pub struct Faulty {
    /// Pair rules are numbered from here.
    event_rules: u16,
    rules: u16,
    /// The rule that is named.
    rule: u16,
    /// The last rule that is at fault in the same way.
    last: u16,
    /// The first rule that isn't above its predecessor.
    out_of_order: Option<u16>,
}

/// Rule 0 has no predecessor, so that refusal 7 never names it.
pub const OF_RULES: [Remark<Faulty>; 8] = [
    ("rule 0", &[6], |f| f.rule == 0),
    ("rule of 256 or more", &[6, 7], |f| f.rule >= 256),
    ("event rule", &[6, 7], |f| f.rule < f.event_rules),
    ("pair rule", &[6, 7], |f| f.rule >= f.event_rules),
    ("last of all rules", &[6, 7], |f| f.rule + 1 == f.rules),
    ("first of several rules", &[6, 7], |f| f.last > f.rule),
    ("event rule before a pair rule", &[6, 7], |f| {
        f.rule < f.event_rules && f.last >= f.event_rules
    }),
    ("rule after one that breaks 7", &[6], |f| {
        f.out_of_order.is_some_and(|first| first < f.rule)
    }),
];

pub fn faulty(image: &[u8], answer: &Answer) -> Faulty {
    let grammar = shown(image).expect("1 to 5 come before 6 and 7");
    let (event_rules, pair_rules) = (grammar.event_rules.len(), grammar.pair_rules.len());
    let out_of_order = grammar.rules_out_of_order();
    let out_of_range = grammar.rules_out_of_range();
    let at_fault = [&out_of_range, &out_of_order][usize::from(answer.number - 6)];
    Faulty {
        event_rules: event_rules as u16,
        rules: (event_rules + pair_rules) as u16,
        rule: answer.rule,
        last: *at_fault.last().expect("a rule is at fault"),
        out_of_order: out_of_order.first().copied(),
    }
}
