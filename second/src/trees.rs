//! Derivation trees, one by one from the definition, and their scripts.

use crate::derive::{matches, Table};
use crate::image::Grammar;
use std::rc::Rc;

/// A derivation: a use of an event rule, or a use of a pair rule over two derivations.
#[derive(Debug)]
pub enum Tree {
    Leaf {
        rule: usize,
        /// i + 1 for a leaf over event i + 1.
        place: usize,
    },
    Pair {
        rule: usize,
        split: usize,
        left: Rc<Tree>,
        right: Rc<Tree>,
    },
}

/// The words of a script over so many events; none for an empty record, whose one reading, where it
/// is admitted, is the empty script.
pub fn script_words(events: usize) -> usize {
    match events {
        0 => 0,
        n => 2 * (2 * n - 1),
    }
}

impl Tree {
    /// A node before its left part, the left part before the right.
    pub fn script(&self) -> Vec<u16> {
        match self {
            Tree::Leaf { rule, place } => vec![*rule as u16, *place as u16],
            Tree::Pair {
                rule,
                split,
                left,
                right,
            } => [
                vec![*rule as u16, *split as u16],
                left.script(),
                right.script(),
            ]
            .concat(),
        }
    }
}

/// What the trees are made from.
pub struct Forest<'a> {
    pub grammar: &'a Grammar,
    pub events: &'a [u16],
    /// Which premises are derivable. A pair rule with one that is not has no tree, however many
    /// the other premise has; those are not listed then, or it could take forever.
    pub derivable: &'a Table<bool>,
}

impl Forest<'_> {
    /// All derivations of [a, i, k], in no stated order.
    pub fn trees(&self, a: usize, i: usize, k: usize) -> Vec<Rc<Tree>> {
        let mut trees = Vec::new();
        for (rule, event_rule) in self.grammar.event_rules_of(a) {
            if matches(event_rule, self.events, i, k) {
                trees.push(Rc::new(Tree::Leaf { rule, place: i + 1 }));
            }
        }
        for (rule, pair) in self.grammar.pair_rules_of(a) {
            for j in i + 1..k {
                if self.derivable.get(pair.left, i, j) && self.derivable.get(pair.right, j, k) {
                    let lefts = self.trees(pair.left, i, j);
                    let rights = self.trees(pair.right, j, k);
                    trees.extend(every_pair(rule, j, &lefts, &rights));
                }
            }
        }
        trees
    }
}

/// A use of one pair rule and split over every choice of a left and a right part.
fn every_pair(rule: usize, split: usize, lefts: &[Rc<Tree>], rights: &[Rc<Tree>]) -> Vec<Rc<Tree>> {
    let mut trees = Vec::new();
    for left in lefts {
        for right in rights {
            let (left, right) = (left.clone(), right.clone());
            trees.push(Rc::new(Tree::Pair {
                rule,
                split,
                left,
                right,
            }));
        }
    }
    trees
}
