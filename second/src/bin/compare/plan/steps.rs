//! Which calls are made with an image and a record: numbers of readings, scripts, pages.

use crate::calls::setting::Step;
use crate::draw::numbers;
use crate::draw::pages::Page;
use crate::draw::scripts::{a_reading, any_script, random_words, Script};
use crate::plan::case::Case;
use second::image::{header_bytes, well_formed, Grammar};
use second::random::Random;
use second::readings::{cut, Readings};
use second::services::MOST_EVENTS;
use second::trees::script_words;

/// All numbers of a record that has so many readings are tried, now and then.
const FEW: u64 = 20;

/// All pages of a record that has so many readings are tried, now and then.
const FEW_PAGED: u64 = 5;

/// Every service at least once, but for numbers of scripts and pages where they take longest.
pub fn steps(case: &mut Case) -> Vec<Step> {
    let mut steps = vec![case.test(case.image), case.judge(), case.count()];
    match well_formed(case.image) {
        Ok(grammar) if case.events.len() <= MOST_EVENTS => steps.extend(answered(case, &grammar)),
        _ => {
            let k = case.random.one_of(&[0, u32::MAX]);
            let script = random_words(case.random, case.events);
            steps.push(case.reading(k, ""));
            steps.push(case.check(&script));
            steps.push(case.number(&script));
            let m = case.random.one_of(&[0, 1, 2, u32::MAX]);
            steps.push(case.page(&Page { k, m, total: 0 }));
        }
    }
    let has_flag = header_bytes(case.image) == 11 && case.image.len() >= 11;
    if has_flag && case.random.once_in(50) {
        steps.extend(every_flag(case));
    }
    steps
}

/// The test of a version 2 image with each flag.
fn every_flag(case: &mut Case) -> Vec<Step> {
    case.tally.add("every flag");
    let mut image = case.image.to_vec();
    let mut steps = Vec::new();
    for flag in 0..=255 {
        image[10] = flag;
        steps.push(case.test(&image));
    }
    steps
}

/// Readings, checks, numbers and pages of an image and a record that are not refused, or only for
/// dead symbols.
fn answered(case: &mut Case, grammar: &Grammar) -> Vec<Step> {
    let readings = Readings::of(grammar, case.events);
    let total = readings.total();
    if case.accepted {
        note_sizes(case, grammar, total);
    }
    // Each takes as long as a count, but for the checks.
    let work = grammar.pair_rules.len() * case.n.pow(3);
    let read = match work {
        0..=500_000 => 3,
        500_001..=5_000_000 => 2,
        _ => 1,
    };
    let numbered = match work {
        0..=500_000 if total >= u32::MAX.into() => 3,
        0..=50_000 if total > 0 => 2,
        0..=5_000_000 => 1,
        _ => case.random.below(2),
    };
    let mut steps = Vec::new();
    for _ in 0..read {
        let k = numbers::any(case.random, cut(total));
        steps.push(case.reading(k, numbers::what_there_is(k, total)));
    }
    for _ in 0..4 {
        let script = any_script(case.random, &readings);
        steps.push(case.check(&script));
    }
    for _ in 0..numbered {
        let script = to_be_numbered(case.random, &readings);
        steps.push(case.number(&script));
    }
    if (2..=FEW).contains(&total) && case.random.once_in(8) {
        let both_ways = |number| case.both_ways(number as u32, &readings.script(number));
        steps.extend((0..total).flat_map(both_ways));
    }
    steps.extend(pages(case, grammar, total));
    steps
}

/// One page mostly; more where they don't take long, and then also long pages and every page of few
/// readings now and then.
fn pages(case: &mut Case, grammar: &Grammar, total: u64) -> Vec<Step> {
    let words = script_words(case.n);
    // What a table takes, and what a script takes.
    let table = grammar.pair_rules.len() * case.n.pow(3);
    let script = grammar.pair_rules.len() * case.n;
    let pages = match table {
        0..=5_000 => 2,
        5_001..=5_000_000 => 1,
        _ => case.random.below(2),
    };
    let most = match script {
        0..=200 => 24,
        201..=2_000 => 8,
        _ => 3,
    };
    let mut steps = Vec::new();
    for _ in 0..pages {
        let page = Page::any(case.random, total, words, most);
        steps.push(case.page(&page));
    }
    if case.n > 0 && script <= 200 && case.random.once_in(80) {
        let page = Page::long(case.random, total, words);
        steps.push(case.exact_page(&page));
    }
    let few = (1..=FEW_PAGED).contains(&total);
    if few && table <= 50_000 && case.random.once_in(40) {
        case.tally.add("every page of few");
        steps.extend(Page::every(total).map(|page| case.exact_page(&page)));
    }
    steps
}

/// A reading mostly, if there is one.
fn to_be_numbered(random: &mut Random, readings: &Readings) -> Script {
    let reading = match random.below(3) {
        0 => None,
        _ => a_reading(random, readings),
    };
    reading.unwrap_or_else(|| any_script(random, readings))
}

/// Sizes and totals that are easily got wrong are counted on their own.
fn note_sizes(case: &mut Case, grammar: &Grammar, total: u64) {
    let rules = (grammar.event_rules.len(), grammar.pair_rules.len());
    if (case.n, grammar.symbols, rules) == (MOST_EVENTS, 64, (512, 256)) {
        case.tally.add("largest image and record");
    }
    let near = 4_294_967_294..=4_294_967_296;
    if near.contains(&total) {
        case.tally.add(format!("true total: {total}"));
    } else if total == u64::MAX {
        case.tally.add("true total: 64 bits or more");
    }
}
