//! `page`. Scripts are told word for word or by their numbers: where they are of readings and rise,
//! and the first and the last have their numbers, so have those between.

use super::reading::{past, short_of_room, MIDDLE};
use super::{called, compare, time};
use crate::answers::{Numbered, Paged};
use crate::case::{at_fault, Case, Lent, Side};
use crate::records::{self, Input, Words};
use crate::sizes::script_words;
use crate::{ours, plain};

type Page = fn(&[u8], &[u16], u32, u32, &mut [u32], &mut [u16]) -> Paged;

const SIDES: &[Side<Page>] = &[
    ("ours", ours::page),
    ("afresh", plain::page_afresh),
    ("stepping", plain::page_stepping),
    ("singly", singly),
];

/// The sides before `singly`.
const PAGES: usize = 3;

pub fn run(rounds: usize) {
    let side = |page: Page| {
        move |i: &Input, lent: &mut Lent| {
            let Lent { table, script, .. } = lent;
            page(&i.image, &i.events, i.k, i.m, table, script)
        }
    };
    let sides = called(SIDES, side);
    let pages = &sides[..PAGES];
    let (long, short) = (long(), short());
    compare(pages, &long, &others());
    time(pages, &long, rounds);
    compare(&sides, &short, &[]);
    time(&sides, &short, rounds);
}

/// A page that isn't refused, by our `reading`: each call fills the table again.
fn singly(
    image: &[u8],
    events: &[u16],
    k: u32,
    m: u32,
    table: &mut [u32],
    room: &mut [u16],
) -> Paged {
    let words = script_words(events.len());
    let mut written = 0;
    while written < m {
        let script = &mut room[written as usize * words..];
        if ours::reading(image, events, k + written, table, script).number != 0 {
            break;
        }
        written += 1;
    }
    Paged {
        refusal: 0.into(),
        written,
    }
}

/// Where a page begins that doesn't begin with number 0.
const MIDWAY: u32 = 1_000_000_000;

/// Pages that take too long by single calls.
fn long() -> Vec<Case<Paged>> {
    let (chain, full) = (records::sevens, records::full);
    vec![
        whole(chain(20).named("CHAIN, 10000 readings"), 0, 10_000),
        whole(chain(64).named("CHAIN, 10000 readings"), 0, 10_000),
        whole(chain(64).named("CHAIN, 10000 midway"), MIDWAY, 10_000),
        whole(full(20).named("full, 10000 readings"), 0, 10_000),
        whole(full(64).named("full, 100 readings"), 0, 100),
        whole(full(64).named("full, 10000 readings"), 0, 10_000),
        whole(records::forked(32).named("forked, 100 readings"), 0, 100),
    ]
}

/// The other pages. A page of one reading is what `reading` gives, and takes that long singly.
fn short() -> Vec<Case<Paged>> {
    let (chain, full) = (records::sevens, records::full);
    vec![
        whole(chain(20).named("CHAIN, 100 readings"), 0, 100),
        whole(chain(64).named("CHAIN, 100 readings"), 0, 100),
        whole(chain(64).named("CHAIN, 100 midway"), MIDWAY, 100),
        whole(full(20).named("full, 100 readings"), 0, 100),
        // Stops without a gap have one reading.
        paged(records::stops().named("STOP, 1 of 100"), 0, 100, 1),
        whole(chain(20).named("CHAIN, 1 midway"), MIDWAY, 1),
        whole(chain(64).named("CHAIN, 1 midway"), MIDWAY, 1),
        whole(full(20).named("full, 1 midway"), MIDWAY, 1),
        whole(full(64).named("full, 1 midway"), MIDWAY, 1),
        whole(records::stops().named("STOP, 1 of 1"), 0, 1),
    ]
}

/// Pages of all readings, at the end of the numbers and of nothing, and refusals.
fn others() -> Vec<Case<Paged>> {
    let (chain, quiet) = (records::sevens, records::quiet);
    let mut cases = at_fault();
    cases.extend([0, 1, 5].into_iter().flat_map(past));
    cases.extend([1, 5].into_iter().flat_map(short_of_room));
    cases.extend([
        both(),
        paged(chain(1), 0, 5, 1),
        paged(chain(8), 0, 500, 429),
        paged(records::three_chains(4), 0, 60, 50),
        paged(records::any_two(3), 0, 8200, 8192),
        paged(records::forked(3), 0, 10, 8),
        paged(chain(3), 1, 5, 1),
        paged(chain(20), 1_767_263_188, 5, 2),
        paged(chain(21), u32::MAX - 3, 5, 3),
        whole(chain(96), MIDDLE, 5),
        whole(chain(3), 1, 0),
        whole(quiet(1), 0, 0),
        whole(quiet(1), 0, 1),
        paged(quiet(1), 0, u32::MAX, 1),
        short_by_far(),
    ]);
    cases
}

/// Both readings of CHAIN over three events, word for word.
fn both() -> Case<Paged> {
    let [_, first, second, ..] = records::readings();
    let scripts = [first.script, second.script].concat();
    whole(records::sevens(3), 0, 2).knowing(move |lent| lent.script.starts_with(&scripts))
}

/// The words of so many scripts are 2 · 2³² + 8, of which 32 bits keep the 8.
fn short_by_far() -> Case<Paged> {
    let input = records::sevens(3);
    let room = input.needs();
    let m = 858_993_460;
    Case::refused(Input { m, ..input }, 11).with_room(room)
}

/// A page of as many readings as are asked for.
fn whole(input: Input, k: u32, m: u32) -> Case<Paged> {
    paged(input, k, m, m)
}

/// A page of so many readings, where m are asked for.
fn paged(input: Input, k: u32, m: u32, written: u32) -> Case<Paged> {
    let input = Input { k, m, ..input };
    let words = Words {
        chart: 0,
        table: input.needs().table,
        script: written as usize * script_words(input.events.len()),
    };
    let told = Paged {
        refusal: 0.into(),
        written,
    };
    let read = input.clone();
    Case::new(input, words, told).knowing(move |lent| is_page(&read, &lent.script[..words.script]))
}

/// Whether the words are the scripts of the readings from number k on.
fn is_page(input: &Input, page: &[u16]) -> bool {
    if page.is_empty() {
        return true;
    }
    let (image, events) = (&input.image, &input.events);
    let scripts: Vec<_> = page.chunks_exact(script_words(events.len())).collect();
    let is_reading = |script: &&[u16]| plain::check(image, events, script).yes;
    let mut table = vec![0; input.needs().table];
    let mut has_number = |script: &[u16], reading| {
        let told = Numbered {
            refusal: 0.into(),
            reading,
        };
        plain::number(image, events, script, &mut table) == told
    };
    let last = scripts.len() - 1;
    scripts.iter().all(is_reading)
        && scripts.is_sorted_by(|a, b| a < b)
        && has_number(scripts[0], input.k)
        && has_number(scripts[last], input.k + last as u32)
}
