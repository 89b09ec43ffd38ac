//! `check`: follows a script down to shorter and shorter stretches.

use super::{low_first, test, Grammar};
use crate::answers::Checked;
use crate::sizes::script_words;

/// Refusals 1 to 8, or whether the words are the script of a reading.
pub fn check(image: &[u8], events: &[u16], script: &[u16]) -> Checked {
    let grammar = match test(image, events) {
        Ok(grammar) => grammar,
        Err(refusal) => return Checked::from(refusal),
    };
    Checked {
        refusal: 0.into(),
        yes: is_reading(&grammar, events, script),
    }
}

/// Whether the words are the script of a reading.
pub fn is_reading(grammar: &Grammar, events: &[u16], script: &[u16]) -> bool {
    let n = events.len();
    let follows = || match n {
        0 => grammar.quiet,
        _ => follows(grammar, events, 0, 0, script),
    };
    script.len() == script_words(n) && follows()
}

/// Whether the script is of a derivation of the symbol over these events, which begin at place
/// `from` of the record; it has as many words as that takes.
fn follows(grammar: &Grammar, events: &[u16], symbol: u8, from: usize, script: &[u16]) -> bool {
    let (rule, split) = (script[0] as usize, script[1] as usize);
    let leaves = grammar.leaves.len() / 3;
    if let [event] = events {
        let leaf = rule < leaves && {
            let r = &grammar.leaves[3 * rule..][..3];
            r[0] == symbol && low_first(r, 1) == *event
        };
        return leaf && split == from + 1;
    }
    if rule < leaves || rule - leaves >= grammar.pairs.len() / 3 {
        return false;
    }
    let pair = &grammar.pairs[3 * (rule - leaves)..][..3];
    if pair[0] != symbol || split <= from || split >= from + events.len() {
        return false;
    }
    let (left, right) = script[2..].split_at(script_words(split - from));
    let (before, after) = events.split_at(split - from);
    follows(grammar, before, pair[1], from, left) && follows(grammar, after, pair[2], split, right)
}
