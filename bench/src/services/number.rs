//! `number`. The scripts of numbers are from the plain side. What is told of them is worked out from
//! their words, with Catalan numbers or digit by digit.

use super::reading::MIDDLE;
use super::{called, compare_and_time};
use crate::alike::{trees, Alike, CHAIN, FULL};
use crate::answers::{Numbered, Refusal};
use crate::case::{at_fault, Case, Lent, Side};
use crate::records::{self, Input, Words, LENGTHS};
use crate::sizes::splits;
use crate::{ours, plain};

type Number = fn(&[u8], &[u16], &[u16], &mut [u32]) -> Numbered;

const SIDES: &[Side<Number>] = &[("ours", ours::number), ("plain", plain::number)];

pub fn run(rounds: usize) {
    let side = |number: Number| {
        move |i: &Input, lent: &mut Lent| number(&i.image, &i.events, &i.script, &mut lent.table)
    };
    compare_and_time(&called(SIDES, side), timed(), others(), splits, rounds);
}

/// The last number that is answered.
const LAST: u32 = u32::MAX - 1;

fn timed() -> Vec<Case<Numbered>> {
    let mut cases: Vec<_> = LENGTHS.into_iter().flat_map(long).collect();
    let wrong = records::stops().named("STOP, no reading");
    cases.extend(any_two());
    cases.extend([
        quoted(records::short().with_reading(0), 0),
        quoted(records::sevens(1).with_reading(0), 0),
        quoted(records::sevens(3).with_reading(1), 1),
        quoted(records::stops(), 0),
        unnumbered(wrong.with_last_leaf_wrong(), 12),
    ]);
    cases
}

fn long(events: usize) -> Vec<Case<Numbered>> {
    let full = [
        "full, number 0",
        "full, middle",
        "full, last answered",
        "full, past the limit",
        "full, no reading",
    ];
    let chain = [
        "CHAIN, number 0",
        "CHAIN, middle",
        "CHAIN, last answered",
        "CHAIN, past the limit",
        "CHAIN, no reading",
    ];
    let mut cases = Vec::new();
    cases.extend(alike(FULL, records::full(events), full));
    cases.extend(alike(CHAIN, records::sevens(events), chain));
    cases.extend(forked(events / 2));
    cases.push(quoted(records::one_by_one(events).with_reading(0), 0));
    cases.push(nearly_empty(events));
    cases
}

/// Of a record with more readings than numbers: three that have a number, the last, which has none,
/// and the last with a fault.
fn alike(grammar: Alike, record: Input, names: [&'static str; 5]) -> [Case<Numbered>; 5] {
    let [first, middle, last, past, none] = names.map(|name| record.clone().named(name));
    let number_of = |script: &[u16]| grammar.number_of(script, 0);
    let script = grammar.last(&record.image, 0, &record.events);
    [
        numbered(first, 0, number_of),
        numbered(middle, MIDDLE, number_of),
        numbered(last, LAST, number_of),
        quoted(past.with_script(&script), number_of(&script)),
        unnumbered(none.with_script(&script).with_last_leaf_wrong(), 12),
    ]
}

/// The last number that is answered, the next one, and a fault.
fn forked(stops: usize) -> [Case<Numbered>; 3] {
    let record = |name| records::forked(stops).named(name);
    let none = record("forked, no reading").with_reading(LAST);
    let mut next = record("forked, at the limit").with_script(&none.script);
    // The last stop gets the second press, in the rule that it is made by and in the leaf.
    let stop = next.script.len() - 6;
    next.script[stop] += 1;
    next.script[stop + 2] += 1;
    let number = in_binary(&next.script);
    [
        numbered(record("forked, last answered"), LAST, in_binary),
        quoted(next, number),
        unnumbered(none.with_last_leaf_wrong(), 12),
    ]
}

/// The number of a script of the record `forked`: each press is a digit, 0 or 1 by
/// the rule of its leaf.
fn in_binary(script: &[u16]) -> u128 {
    let digit = |node: &[u16]| match node[0] {
        59 => Some(0),
        60 => Some(1),
        _ => None,
    };
    let digits = script.chunks_exact(2).filter_map(digit);
    digits.fold(0, |number, digit| 2 * number + digit)
}

/// The script is of a record in which every event is known.
fn nearly_empty(events: usize) -> Case<Numbered> {
    let full = records::full(events);
    let script = FULL.last(&full.image, 0, &full.events);
    unnumbered(records::nearly_empty(events).with_script(&script), 12)
}

/// The first and the last of all readings: at a leaf sixteen symbols can stand.
fn any_two() -> [Case<Numbered>; 2] {
    let first = records::any_two(6).named("any two, number 0");
    let last = records::any_two(6).named("any two, last");
    let number = trees(6) * 16_u128.pow(6) - 1;
    [
        quoted(first.with_reading(0), 0),
        quoted(last.with_reading(number as u32), number),
    ]
}

/// Other rows of the specification, and refusals.
fn others() -> Vec<Case<Numbered>> {
    let in_chain = |script: &[u16]| CHAIN.number_of(script, 0);
    let past = records::sevens(21);
    let script = CHAIN.last(&past.image, 0, &past.events);
    let mut cases = at_fault();
    cases.extend(records::readings().map(|input| {
        let number = input.k as u128;
        quoted(input, number)
    }));
    cases.extend(records::not_readings().map(|input| unnumbered(input, 12)));
    cases.extend([
        numbered(records::sevens(20), 1_767_263_189, in_chain),
        numbered(records::sevens(21), LAST, in_chain),
        quoted(past.with_script(&script), in_chain(&script)),
        short_of_table(),
    ]);
    cases.extend(products());
    cases
}

/// Where a number is a product of counts, or two.
fn products() -> [Case<Numbered>; 8] {
    [
        // The last of all readings.
        three_chains(10, 1, 4861, 4861),
        // The last number that is answered, and the next.
        three_chains(16, 0, 443, 150_959),
        three_chains(16, 0, 443, 150_960),
        // A product that is too large: of a part's number, and of a rule.
        three_chains(16, 0, 444, 0),
        three_chains(16, 1, 0, 0),
        // The same with counts that are cut off, and 0 times such a count.
        three_chains(32, 0, 1, 0),
        three_chains(32, 1, 0, 0),
        three_chains(32, 0, 0, LAST),
    ]
}

/// By one of the start's two rules, with those readings of CHAIN for its parts. The start has one
/// split, so that no sum hides a product that was cut wrongly.
fn three_chains(of_each: usize, rule: u16, left: u32, right: u32) -> Case<Numbered> {
    // Rules 3 and 4 are the start's; the chains have 0 to 2 for leaves and 5 to 7 for pairs.
    let chain = |which: u16, number: u32, from: usize| {
        let node = |node: &[u16]| [which + 5 * node[0], node[1] + from as u16];
        let script = records::sevens(of_each).with_reading(number).script;
        script.chunks_exact(2).flat_map(node).collect::<Vec<_>>()
    };
    let parts = [chain(0, left, 0), chain(1 + rule, right, of_each)].concat();
    let script = [vec![3 + rule, of_each as u16], parts].concat();
    let lefts = rule as u128 * trees(of_each) + left as u128;
    let number = lefts * trees(of_each) + right as u128;
    let record = records::three_chains(of_each);
    quoted(record.with_script(&script), number)
}

/// Too little room is found before a script that is no reading.
fn short_of_table() -> Case<Numbered> {
    let input = records::stops().with_last_leaf_wrong();
    let mut room = input.needs();
    room.table -= 1;
    Case::refused(input, 10).with_room(room)
}

/// The reading that has this number, as its script tells.
fn numbered(record: Input, k: u32, number_of: impl Fn(&[u16]) -> u128) -> Case<Numbered> {
    let input = record.with_reading(k);
    let number = number_of(&input.script);
    assert_eq!(number, k as u128, "{}: the script", input.title());
    quoted(input, number)
}

/// A reading with this number, which is not answered from the limit on.
fn quoted(input: Input, number: u128) -> Case<Numbered> {
    if number > LAST as u128 {
        return unnumbered(input, 13);
    }
    let told = Numbered {
        refusal: 0.into(),
        reading: number as u32,
    };
    filled(input, told)
}

/// A script that has no number: the table is filled all the same.
fn unnumbered(input: Input, number: u8) -> Case<Numbered> {
    filled(input, Refusal::from(number).into())
}

fn filled(input: Input, told: Numbered) -> Case<Numbered> {
    let written = Words {
        table: input.needs().table,
        ..Words::default()
    };
    Case::new(input, written, told)
}
