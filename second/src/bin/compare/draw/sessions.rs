//! Sessions that nobody has grown: any words, and any count.

use crate::draw::symbols::symbol_bits;
use second::random::Random;
use second::session::{Session, CHART_WORDS};

/// A name, and how a word is drawn where there are so many symbols.
type Words = (&'static str, fn(&mut Random, usize) -> u64);

pub const WORDS: [Words; 7] = [
    ("zeros", |_, _| 0),
    ("ones", |_, _| u64::MAX),
    ("half of the bits", |random, _| random.word()),
    ("few bits", |random, _| few_bits(random)),
    ("few symbols", |random, n| few_bits(random) & symbol_bits(n)),
    ("bits from N up", |random, n| {
        random.word() & !symbol_bits(n)
    }),
    ("mixed words", |random, n| {
        random.one_of(&WORDS[..6]).1(random, n)
    }),
];

fn few_bits(random: &mut Random) -> u64 {
    random.word() & random.word() & random.word()
}

/// Counts that are too large, though fewer bits of them tell of fewer events, or of fewer than none.
pub const LARGE: [u64; 11] = [
    256,
    256 + 5,
    65_536,
    65_536 + 7,
    1 << 32,
    (1 << 32) + 5,
    (1 << 32) + 31,
    1 << 63,
    (1 << 63) + 3,
    u64::MAX - 4,
    u64::MAX,
];

/// Around both limits often.
fn any_count(random: &mut Random) -> u64 {
    match random.below(16) {
        0..=6 => random.below(32) as u64,
        7 => 0,
        8 | 9 => 31,
        10 => 32,
        11 => 33,
        12 => random.within(34, 40) as u64,
        13 => random.word() >> random.below(58),
        _ => random.one_of(&LARGE),
    }
}

/// A session for so many symbols, and how its words are drawn.
pub fn any_session(random: &mut Random, n: usize) -> (&'static str, Session) {
    let (name, draw) = random.one_of(&WORDS);
    let session = Session {
        chart: [0; CHART_WORDS].map(|_| draw(random, n)),
        count: any_count(random),
    };
    (name, session)
}
