//! The services: what each is called with, what is known of the outcome, and how the sides are
//! compared and timed.

pub mod bytes;
pub mod check;
pub mod count;
pub mod judge;
pub mod number;
pub mod page;
pub mod reading;
pub mod session;

use crate::case::{verify, Case, Lent, Side};
use crate::records::Input;
use crate::timing::{self, Times};
use std::fmt::Debug;

/// A name, and what compares the sides of the service and then times them in a number of rounds.
pub type Service = (&'static str, fn(usize));

pub const ALL: [Service; 8] = [
    ("judge", judge::run),
    ("count", count::run),
    ("reading", reading::run),
    ("page", page::run),
    ("number", number::run),
    ("check", check::run),
    ("session", session::run),
    ("bytes", bytes::run),
];

/// The sides of a service, each called in the way that `call` gives for it.
fn called<S: Copy, F>(sides: &[Side<S>], call: impl Fn(S) -> F) -> Vec<Side<F>> {
    sides
        .iter()
        .map(|&(name, side)| (name, call(side)))
        .collect()
}

/// Compares the sides in all cases, and times them in those that are to be timed. The steps that a
/// call takes by its number of events are what the growth of its times is set beside.
fn compare_and_time<A, F>(
    sides: &[Side<F>],
    timed: Vec<Case<A>>,
    others: Vec<Case<A>>,
    steps: fn(usize) -> usize,
    rounds: usize,
) where
    A: Debug + PartialEq,
    F: Fn(&Input, &mut Lent) -> A,
{
    compare(sides, &timed, &others);
    let times = time(sides, &timed, rounds);
    let names: Vec<_> = sides.iter().map(|side| side.0).collect();
    timing::print_growth(&names, &times, steps);
}

fn compare<A, F>(sides: &[Side<F>], timed: &[Case<A>], others: &[Case<A>])
where
    A: Debug + PartialEq,
    F: Fn(&Input, &mut Lent) -> A,
{
    timed.iter().for_each(|case| verify(sides, case));
    others.iter().for_each(|case| verify(sides, case));
    let (timed_count, other_count) = (timed.len(), others.len());
    println!("{timed_count} timed cases and {other_count} others equal in every answer and word");
}

fn time<'a, A, F>(sides: &[Side<F>], timed: &'a [Case<A>], rounds: usize) -> Vec<Times<'a>>
where
    F: Fn(&Input, &mut Lent) -> A,
{
    let names: Vec<_> = sides.iter().map(|side| side.0).collect();
    timing::print_head();
    let measure = |case| {
        let times = timing::measure(sides, case, rounds);
        timing::print_times(&names, &times);
        times
    };
    timed.iter().map(measure).collect()
}
