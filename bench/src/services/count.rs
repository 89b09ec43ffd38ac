//! `count`. Totals, and the sums of all words of a table, are told from Catalan numbers and from
//! rules that hold for every stretch of a length; only what is told of `half` is the plain side's
//! own answer.

use super::{called, compare_and_time};
use crate::alike::{cut, trees, CHAIN, FULL};
use crate::answers::Counted;
#[cfg(before)]
use crate::before;
use crate::case::{at_fault, Case, Lent, Side};
use crate::records::{self, Input, Words, LENGTHS};
use crate::sizes::{splits, LIMIT};
use crate::{ours, plain};

type Count = fn(&[u8], &[u16], &mut [u32]) -> Counted;

const SIDES: &[Side<Count>] = &[
    ("ours", ours::count),
    #[cfg(before)]
    ("before", before::count),
    ("plain", plain::count),
    ("skipping", plain::count_skipping),
];

pub fn run(rounds: usize) {
    let side = |count: Count| {
        move |input: &Input, lent: &mut Lent| count(&input.image, &input.events, &mut lent.table)
    };
    compare_and_time(&called(SIDES, side), timed(), others(), splits, rounds);
}

pub fn timed() -> Vec<Case<Counted>> {
    let mut cases: Vec<_> = LENGTHS.into_iter().flat_map(long).collect();
    cases.push(chain(3, 2));
    // There are as many firings as items, so that each item has one derivation.
    cases.push(counted(records::stops(), 1, 13));
    cases
}

fn long(events: usize) -> Vec<Case<Counted>> {
    let [half, mixed] = records::drawn(events);
    let mut table = vec![0; half.needs().table];
    let own = plain::count(&half.image, &half.events, &mut table);
    // The start is one of the 32 symbols with three rules. The other symbols go two by two: over a
    // stretch one has a derivation for each tree, the other has none.
    let three = three_rules(events);
    let of_mixed = |m| 32 * three[m] + 16 * cut(trees(m));
    let of_full = |m| 64 * cut(FULL.ways(m));
    // In sixteen events 64 symbols each: two leaves with one derivation and a stretch of two with
    // one for each of four rules.
    let few = events as u64 / 16 * 64 * (2 + 4);
    vec![
        counted(records::full(events), LIMIT, over(events, of_full)),
        counted(half, own.total as u64, sum_of(&table)),
        counted(mixed, three[events], over(events, of_mixed)),
        one_of_each(records::fifteen(events), 15),
        one_of_each(records::five(events), 5),
        counted(records::nearly_empty(events), 0, few),
        chain(events, LIMIT),
    ]
}

/// Over a stretch the one symbol of a class has a derivation for each tree. The start has none.
fn one_of_each(input: Input, classes: u64) -> Case<Counted> {
    let sum = over(input.events.len(), |m| classes * cut(trees(m)));
    counted(input, 0, sum)
}

/// Other rows of the specification, and refusals.
pub fn others() -> Vec<Case<Counted>> {
    let rows = [
        (0, 0),
        (1, 1),
        (2, 1),
        (4, 5),
        (20, 1_767_263_190),
        (21, LIMIT),
    ];
    let mut cases = at_fault();
    cases.extend(rows.map(|(events, total)| chain(events, total)));
    cases.extend([0, 1].map(|flag| counted(records::quiet(flag), flag as u64, 0)));
    cases.push(two_chains());
    cases.push(short_of_table());
    cases
}

fn chain(events: usize, total: u64) -> Case<Counted> {
    let sum = over(events, |m| cut(CHAIN.ways(m)));
    counted(records::sevens(events), total, sum)
}

/// Here the start has one split over a stretch, so that no sum hides a product that was cut
/// wrongly.
fn two_chains() -> Case<Counted> {
    let parts = (1..=32).flat_map(|sevens| (1..=32).map(move |eights| (sevens, eights)));
    let of_start: u64 = parts.map(|(a, b)| cut(trees(a) * trees(b))).sum();
    let sum = of_start + 2 * over(32, |m| cut(trees(m)));
    counted(records::sevens_and_eights(32), LIMIT, sum)
}

fn counted(input: Input, total: u64, sum: u64) -> Case<Counted> {
    let table = input.needs().table;
    let written = Words {
        table,
        ..Words::default()
    };
    let told = Counted {
        refusal: 0.into(),
        total: total as u32,
    };
    Case::new(input, written, told).knowing(move |lent| sum_of(&lent.table[..table]) == sum)
}

fn short_of_table() -> Case<Counted> {
    let input = records::stops();
    let table = input.needs().table - 1;
    let room = Words {
        table,
        ..input.needs()
    };
    Case::refused(input, 10).with_room(room)
}

fn sum_of(words: &[u32]) -> u64 {
    words.iter().map(|&w| w as u64).sum()
}

/// The sum over all stretches, of which there is one less for each length than for the one before.
fn over(events: usize, in_a_cell: impl Fn(usize) -> u64) -> u64 {
    let of_length = |m| (events + 1 - m) as u64 * in_a_cell(m);
    (1..=events).map(of_length).sum()
}

/// The derivations in `mixed` of a symbol with three rules at each split, by the number of events:
/// the left part is such a symbol again, and the right part has a derivation for each tree.
fn three_rules(events: usize) -> Vec<u64> {
    let mut ways = vec![0, 1];
    for m in 2..=events {
        let with = |j: usize| ways[j] as u128 * cut(trees(m - j)) as u128;
        let sum: u128 = (1..m).map(with).sum();
        ways.push(cut(3 * sum));
    }
    ways
}
