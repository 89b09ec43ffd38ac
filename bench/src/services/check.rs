//! `check`. The long scripts are those of `reading`; which scripts are right follows from the
//! rules.

use super::reading::MIDDLE;
use super::{called, compare_and_time};
use crate::answers::Checked;
use crate::case::{at_fault, Case, Lent, Side};
use crate::records::{self, Input, Words, LENGTHS};
use crate::{ours, plain};

type Check = fn(&[u8], &[u16], &[u16]) -> Checked;

const SIDES: &[Side<Check>] = &[("ours", ours::check), ("plain", plain::check)];

pub fn run(rounds: usize) {
    let side = |check: Check| {
        move |input: &Input, _: &mut Lent| check(&input.image, &input.events, &input.script)
    };
    let sides = called(SIDES, side);
    let timed = LENGTHS.into_iter().flat_map(long).collect();
    compare_and_time(&sides, timed, others(), |events| events, rounds);
}

fn long(events: usize) -> [Case<Checked>; 3] {
    let full = records::full(events).with_reading(MIDDLE);
    let wrong = full.clone().named("full, last leaf wrong");
    [
        checked(records::sevens(events).with_reading(MIDDLE), true),
        checked(full, true),
        checked(wrong.with_last_leaf_wrong(), false),
    ]
}

/// Short scripts, right and wrong, and refusals.
fn others() -> Vec<Case<Checked>> {
    let mut cases = at_fault();
    cases.extend(records::readings().map(|input| checked(input, true)));
    cases.extend(records::not_readings().map(|input| checked(input, false)));
    cases
}

fn checked(input: Input, yes: bool) -> Case<Checked> {
    Case::new(
        input,
        Words::default(),
        Checked {
            refusal: 0.into(),
            yes,
        },
    )
}
