//! `reading`. A script is told word for word, or by its number, which is worked out from the script
//! with Catalan numbers.

use super::{called, compare_and_time};
use crate::alike::{Alike, CHAIN, FULL};
use crate::answers::Refusal;
use crate::case::{at_fault, Case, Lent, Side};
use crate::records::{self, Input, Words, LENGTHS};
use crate::sizes::splits;
use crate::{ours, plain};

type Reading = fn(&[u8], &[u16], u32, &mut [u32], &mut [u16]) -> Refusal;

const SIDES: &[Side<Reading>] = &[("ours", ours::reading), ("plain", plain::reading)];

pub fn run(rounds: usize) {
    let side = |reading: Reading| {
        move |i: &Input, lent: &mut Lent| {
            reading(&i.image, &i.events, i.k, &mut lent.table, &mut lent.script)
        }
    };
    compare_and_time(&called(SIDES, side), timed(), others(), splits, rounds);
}

/// Half of the greatest number that a total is reported as.
pub const MIDDLE: u32 = u32::MAX / 2;

pub fn timed() -> Vec<Case<Refusal>> {
    let long = |events| {
        [
            numbered(records::full(events), MIDDLE, FULL),
            numbered(records::sevens(events), MIDDLE, CHAIN),
        ]
    };
    let mut cases: Vec<_> = LENGTHS.into_iter().flat_map(long).collect();
    cases.push(written(records::stops()));
    cases
}

/// Other rows of the specification, and refusals.
pub fn others() -> Vec<Case<Refusal>> {
    let sevens = records::sevens;
    let mut cases = at_fault();
    cases.extend(records::readings().map(written));
    cases.extend([
        numbered(sevens(20), 1_767_263_189, CHAIN),
        numbered(sevens(21), u32::MAX - 1, CHAIN),
    ]);
    cases.extend(past(1));
    cases.extend(short_of_room(1));
    cases
}

/// A reading whose script is known.
pub fn written(input: Input) -> Case<Refusal> {
    let script = input.script.clone();
    answered(input).knowing(move |lent| lent.script[..script.len()] == script)
}

/// A reading in a grammar that gives a script's number.
fn numbered(input: Input, k: u32, grammar: Alike) -> Case<Refusal> {
    let (Words { script, .. }, read) = (input.needs(), input.clone());
    answered(Input { k, ..input }).knowing(move |lent| {
        let script = &lent.script[..script];
        let valid = plain::check(&read.image, &read.events, script).yes;
        valid && grammar.number_of(script, 0) == k as u128
    })
}

fn answered(input: Input) -> Case<Refusal> {
    let written = Words {
        chart: 0,
        ..input.needs()
    };
    Case::new(input, written, 0.into())
}

/// Numbers that no reading has, and so many scripts asked for: the table is filled all the same.
pub fn past<A: From<Refusal>>(m: u32) -> [Case<A>; 8] {
    let sevens = records::sevens;
    let numbers = [
        (records::quiet(1), 1, 12),
        (records::quiet(1), u32::MAX, 12),
        (records::quiet(0), 0, 12),
        (sevens(0), 0, 12),
        (sevens(3), 2, 12),
        (sevens(20), 1_767_263_190, 12),
        (sevens(20), u32::MAX, 12),
        (sevens(21), u32::MAX, 13),
    ];
    numbers.map(|(input, k, number)| {
        let written = Words {
            table: input.needs().table,
            ..Words::default()
        };
        let told = Refusal::from(number).into();
        Case::new(Input { k, m, ..input }, written, told)
    })
}

/// Too little room is found before a number that no reading has, the table's before the scripts'.
pub fn short_of_room<A: From<Refusal>>(m: u32) -> [Case<A>; 2] {
    let short = |table_less, number| {
        let input = Input {
            k: 1,
            m,
            ..records::stops()
        };
        let mut room = input.needs();
        room.table -= table_less;
        room.script -= 1;
        Case::refused(input, number).with_room(room)
    };
    [short(1, 10), short(0, 11)]
}
