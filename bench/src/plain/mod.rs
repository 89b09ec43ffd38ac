//! The services in plain Rust, written from the rules and not from the proved code: they are both
//! the measure of speed and a second opinion on the answers. Here is what they share.

mod by_left;
mod bytes;
mod check;
mod count;
mod count_skipping;
mod filled;
mod judge;
mod judge_skipping;
mod number;
mod page;
mod reading;
mod session;

pub use bytes::{count_bytes, judge_bytes, reading_bytes};
pub use check::check;
pub use count::count;
pub use count_skipping::count_skipping;
pub use judge::judge;
pub use judge_skipping::judge_skipping;
pub use number::number;
pub use page::{page_afresh, page_stepping};
pub use reading::reading;
pub use session::{add, add_skipping, begin, take_back};

use crate::answers::Refusal;
use crate::sizes::MOST_EVENTS;

/// An accepted image: its number of symbols, its rules, three bytes each, and whether it admits the
/// empty record.
struct Grammar<'a> {
    symbols: usize,
    quiet: bool,
    leaves: &'a [u8],
    pairs: &'a [u8],
}

/// Refusals 1 to 7, 15 and 8, in their order.
fn test<'a>(image: &'a [u8], events: &[u16]) -> Result<Grammar<'a>, Refusal> {
    let grammar = test_image(image)?;
    if events.len() > MOST_EVENTS {
        return Err(8.into());
    }
    Ok(grammar)
}

fn test_image(image: &[u8]) -> Result<Grammar<'_>, Refusal> {
    if image.len() < 10 {
        return Err(1.into());
    }
    if &image[..3] != b"ESG" {
        return Err(2.into());
    }
    let version = low_first(image, 3);
    if !(1..=2).contains(&version) {
        return Err(3.into());
    }
    let symbols = image[5];
    let leaves = low_first(image, 6) as usize;
    let pairs = low_first(image, 8) as usize;
    let (flag, header) = match version {
        1 => (0, 10),
        _ => (image.get(10).copied().unwrap_or(0), 11),
    };
    if !(1..=64).contains(&symbols) || leaves > 512 || pairs > 256 || flag > 1 {
        return Err(4.into());
    }
    if image.len() != header + 3 * (leaves + pairs) {
        return Err(5.into());
    }
    let (leaves, pairs) = image[header..].split_at(3 * leaves);
    if let Some(rule) = first_unfit(leaves, pairs, symbols) {
        return Err(Refusal { number: 6, rule });
    }
    if let Some(rule) = first_low(leaves, pairs) {
        return Err(Refusal { number: 7, rule });
    }
    if !all_live(leaves, pairs, symbols) {
        return Err(15.into());
    }
    Ok(Grammar {
        symbols: symbols as usize,
        quiet: flag == 1,
        leaves,
        pairs,
    })
}

/// A 16-bit number, low byte first.
fn low_first(bytes: &[u8], at: usize) -> u16 {
    u16::from_le_bytes([bytes[at], bytes[at + 1]])
}

/// The first rule with a symbol that is too large, event rules first.
fn first_unfit(leaves: &[u8], pairs: &[u8], symbols: u8) -> Option<u16> {
    let leaf = leaves.iter().step_by(3).position(|&s| s >= symbols);
    let pair = || pairs.iter().position(|&s| s >= symbols);
    leaf.or_else(|| Some((leaves.len() + pair()?) / 3))
        .map(|rule| rule as u16)
}

/// The first rule that isn't above its predecessor, event rules first. An event stands low byte
/// first: the high byte is compared before it.
fn first_low(leaves: &[u8], pairs: &[u8]) -> Option<u16> {
    let leaf = first_not_rising(leaves, |r| [r[0], r[2], r[1]]);
    let pair = || first_not_rising(pairs, |r| [r[0], r[1], r[2]]);
    leaf.or_else(|| Some(leaves.len() / 3 + pair()?))
        .map(|rule| rule as u16)
}

fn first_not_rising(rules: &[u8], key: fn(&[u8]) -> [u8; 3]) -> Option<usize> {
    let next = rules.chunks_exact(3).skip(1);
    let mut pairs = rules.chunks_exact(3).zip(next);
    Some(1 + pairs.position(|(a, b)| key(a) >= key(b))?)
}

/// Whether every symbol derives some events and can be reached from symbol 0.
fn all_live(leaves: &[u8], pairs: &[u8], symbols: u8) -> bool {
    let all = u64::MAX >> (64 - symbols);
    let own = |rule: &[u8]| 1 << rule[0];
    let parts = |rule: &[u8]| 1 << rule[1] | 1 << rule[2];
    let by_events = leaves.chunks_exact(3).fold(0, |set, rule| set | own(rule));
    closed(by_events, pairs, parts, own) == all && closed(1, pairs, own, parts) == all
}

/// The least set that has the given one, and what a rule adds where it has all that the rule needs.
fn closed(
    mut set: u64,
    pairs: &[u8],
    needs: impl Fn(&[u8]) -> u64,
    adds: impl Fn(&[u8]) -> u64,
) -> u64 {
    loop {
        let before = set;
        for rule in pairs.chunks_exact(3) {
            if needs(rule) & !set == 0 {
                set |= adds(rule);
            }
        }
        if set == before {
            return set;
        }
    }
}

/// The number of a cell in chart and table.
fn cell(i: usize, k: usize) -> usize {
    k * (k - 1) / 2 + i
}
