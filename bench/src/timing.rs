//! The time of a whole call, grammar test included, of all sides in turns.

use crate::case::{Case, Lent, Side};
use crate::records::{Input, LENGTHS};
use std::fmt;
use std::hint::black_box;
use std::time::{Duration, Instant};

/// The memory is lent again and again, never cleared: a call overwrites every word it needs.
fn time<A, F>(side: &F, input: &Input, lent: &mut Lent, calls: u32) -> Duration
where
    F: Fn(&Input, &mut Lent) -> A,
{
    let start = Instant::now();
    for _ in 0..calls {
        black_box(side(black_box(input), black_box(&mut *lent)));
    }
    start.elapsed()
}

/// The least time of a round, which the clock and the scheduler don't blur.
const ROUND: Duration = Duration::from_millis(20);

/// The calls of a round, from the time of fewer; finding out warms up too.
fn calls_for<A, F>(side: &F, input: &Input, lent: &mut Lent) -> u32
where
    F: Fn(&Input, &mut Lent) -> A,
{
    let mut calls = 1;
    loop {
        let taken = time(side, input, lent, calls);
        if taken >= ROUND / 10 {
            let times = ROUND.as_secs_f64() / taken.as_secs_f64();
            return calls * times.ceil() as u32;
        }
        calls *= 2;
    }
}

/// The middle, the least and the greatest of the rounds.
struct Spread {
    median: f64,
    min: f64,
    max: f64,
}

fn spread(rounds: impl Iterator<Item = f64>) -> Spread {
    let mut sorted: Vec<f64> = rounds.collect();
    sorted.sort_by(f64::total_cmp);
    Spread {
        median: sorted[sorted.len() / 2],
        min: sorted[0],
        max: sorted[sorted.len() - 1],
    }
}

impl fmt::Display for Spread {
    fn fmt(&self, f: &mut fmt::Formatter) -> fmt::Result {
        let (Spread { median, min, max }, wide) = (self, f.width().unwrap_or(0));
        write!(f, "{median:wide$.3} [{min:wide$.3} ..{max:wide$.3}]")
    }
}

/// A record and the times of all sides for it, round by round.
pub struct Times<'a> {
    input: &'a Input,
    rounds: Vec<Vec<f64>>,
}

impl Times<'_> {
    fn of(&self, side: usize) -> Spread {
        spread(self.rounds.iter().map(|times| times[side]))
    }

    pub fn median(&self, side: usize) -> f64 {
        self.of(side).median
    }

    /// Our time by that of a side: of the medians, and the least and the greatest in a round.
    fn ratio(&self, side: usize) -> Spread {
        let in_rounds = spread(self.rounds.iter().map(|times| times[0] / times[side]));
        Spread {
            median: self.median(0) / self.median(side),
            ..in_rounds
        }
    }
}

/// The sides take turns, so that a slow moment of the machine falls on all.
pub fn measure<'a, A, F>(sides: &[Side<F>], case: &'a Case<A>, rounds: usize) -> Times<'a>
where
    F: Fn(&Input, &mut Lent) -> A,
{
    let input = &case.input;
    let mut lent = case.lent();
    let enough = |(_, side): &Side<F>| calls_for(side, input, &mut lent);
    let calls: Vec<_> = sides.iter().map(enough).collect();
    let mut of_side = |((_, side), &calls): (&Side<F>, &u32)| {
        let whole = time(side, input, &mut lent, calls);
        whole.as_secs_f64() * 1e6 / calls as f64
    };
    let mut round = || sides.iter().zip(&calls).map(&mut of_side).collect();
    Times {
        input,
        rounds: (0..rounds).map(|_| round()).collect(),
    }
}

pub fn explain(rounds: usize) {
    println!("microseconds for a call: median [min .. max] of {rounds} rounds");
    println!("the number after a case's name is that of its events");
    println!("full is the share of a chart's bits that are one");
    println!(
        "before is the proved code of another commit; skipping is plain Rust for sparse records"
    );
    println!(
        "afresh and stepping are plain Rust, a page by each number anew and from reading to reading; \
         singly is our reading, called for each"
    );
    println!(
        "of a session: judge is our fresh judgement of the events with the one added; \
         each is a fresh one after each event, once is one of all events"
    );
    println!("on bytes: words is our service on words, plain decodes, works on words and encodes");
    println!("steps are the splits of all stretches, for check the events");
}

pub fn print_head() {
    let (time, ratio) = ("microseconds", "ours / this side");
    println!("case                        full  side           {time:^36} {ratio:^24}");
}

/// A line for each side.
pub fn print_times(names: &[&str], times: &Times) {
    let full = times.input.fullness();
    println!(
        "{:25} {full:5.1}%  {:14} {:10}",
        times.input.title(),
        names[0],
        times.of(0)
    );
    for (side, name) in names.iter().enumerate().skip(1) {
        let (time, ratio) = (times.of(side), times.ratio(side));
        println!("{:34}{name:14} {time:10} {ratio:6}", "");
    }
}

/// How the times of a case grow with its record, beside the steps.
pub fn print_growth(names: &[&str], times: &[Times], steps: fn(usize) -> usize) {
    let [short, long] = LENGTHS;
    let of_steps = steps(long) as f64 / steps(short) as f64;
    print!("growth from {short} to {long} events");
    names.iter().for_each(|name| print!(" {name:>8}"));
    println!("    steps");
    let of_length = |events| times.iter().filter(move |t| t.input.events.len() == events);
    for before in of_length(short) {
        if let Some(after) = of_length(long).find(|t| t.input.name == before.input.name) {
            print!("{:27}", before.input.name);
            for side in 0..names.len() {
                print!(" {:8.3}", after.median(side) / before.median(side));
            }
            println!(" {of_steps:8.3}");
        }
    }
}
