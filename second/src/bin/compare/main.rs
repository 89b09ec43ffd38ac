//! compare [--seed S] [--case I] [N]: the proved reader beside this one in N random cases, or in
//! case I alone. A case is one image and one record through all seven services and the three on bytes,
//! and sessions with that image. Both sides must agree in every answer and in every word and byte, lent
//! or not, and the proved reader with itself if a version 1 image is replaced by its twin of version 2,
//! if a number or a script is turned into the other and back, if a script of a page is asked for alone,
//! if the events of a session are judged afresh, and if words are lent in the place of the bytes that
//! show them. Stops at the first difference.
#![forbid(unsafe_code)]

mod calls;
mod comparisons;
mod draw;
mod notes;
mod plan;

use comparisons::one_case::compare;
use notes::expected::expected;
use notes::tally::Tally;
use std::process::ExitCode;

/// In so many cases everything that is expected must occur.
const ENOUGH: u64 = 20_000;

/// Of so many cases at least so many images in a hundred must be accepted, or too little but
/// refusals is compared.
const ACCEPTED: u64 = 45;

struct Arguments {
    seed: u64,
    only: Option<u64>,
    cases: u64,
}

fn arguments() -> Option<Arguments> {
    let mut words = std::env::args().skip(1);
    let mut arguments = Arguments {
        seed: 1,
        only: None,
        cases: ENOUGH,
    };
    while let Some(word) = words.next() {
        match &word[..] {
            "--seed" => arguments.seed = words.next()?.parse().ok()?,
            "--case" => arguments.only = Some(words.next()?.parse().ok()?),
            _ => arguments.cases = word.parse().ok()?,
        }
    }
    Some(arguments)
}

fn main() -> ExitCode {
    let Some(Arguments { seed, only, cases }) = arguments() else {
        eprintln!("arguments: [--seed S] [--case I] [N]");
        return ExitCode::from(2);
    };
    println!("seed {seed}");
    let numbers = only.map_or(0..cases, |case| case..case + 1);
    let mut tally = Tally::default();
    let mut passed = 0;
    for case in numbers {
        if let Err(difference) = compare(seed, case, &mut tally) {
            println!("case {case}, to be repeated by --seed {seed} --case {case}: {difference}");
            println!("compared {} cases: {passed} passed, 1 failed", passed + 1);
            return ExitCode::FAILURE;
        }
        passed += 1;
    }
    tally.print();
    let missing = match passed >= ENOUGH {
        true => too_rare(&tally, passed),
        false => Vec::new(),
    };
    for what in &missing {
        println!("{what}");
    }
    let failed = missing.len();
    println!("compared {passed} cases: {passed} passed, {failed} failed");
    ExitCode::from(u8::from(failed > 0))
}

/// What occurred too rarely in so many cases.
fn too_rare(tally: &Tally, cases: u64) -> Vec<String> {
    let never = tally.missing(&expected());
    let mut too_rare: Vec<_> = never
        .iter()
        .map(|what| format!("never occurred: {what}"))
        .collect();
    let accepted = tally.times("image: number 0");
    if 100 * accepted < ACCEPTED * cases {
        too_rare.push(format!("only {accepted} images were accepted"));
    }
    too_rare
}
