//! The kinds of cases, and how often each is drawn.

use crate::draw::images::dead::{one_dead_case, raw_case, ring_case};
use crate::draw::images::examples::{
    binary_case, chain_case, counted_case, product_case, stop_case,
};
use crate::draw::images::faulty::{faulty_case, header_case};
use crate::draw::images::layered::layered_case;
use crate::draw::images::seams::seams_case;
use crate::draw::images::sizes::{dense, largest_case, limits_case, long_case, sparse, wide};
use crate::draw::records::Drawn;
use second::drawn::live_image;
use second::random::Random;

/// A name, how many of a thousand cases are of this kind, a number that its images are meant to get
/// where they aren't damaged, and how one is drawn.
type Kind = (&'static str, usize, u8, fn(&mut Random) -> Drawn);

pub const KINDS: [Kind; 18] = [
    ("chain", 40, 0, chain_case),
    ("stop", 30, 0, stop_case),
    ("binary", 85, 0, binary_case),
    ("product", 50, 0, product_case),
    ("seams", 25, 0, seams_case),
    ("dense", 243, 0, |random| dense(random, live_image)),
    ("sparse", 196, 0, |random| sparse(random, live_image)),
    ("wide", 65, 0, |random| wide(random, live_image)),
    ("ring", 20, 0, ring_case),
    ("raw", 26, 15, raw_case),
    ("one dead", 60, 15, one_dead_case),
    ("faulty", 30, 7, faulty_case),
    ("limits", 20, 0, limits_case),
    ("header", 30, 15, header_case),
    ("long", 13, 0, long_case),
    ("layered", 50, 0, layered_case),
    ("counted", 16, 0, counted_case),
    ("largest", 1, 0, largest_case),
];

/// A kind in proportion to its number.
pub fn any_kind(random: &mut Random) -> Kind {
    let mut place = random.below(1_000);
    for kind in KINDS {
        if place < kind.1 {
            return kind;
        }
        place -= kind.1;
    }
    panic!("the numbers of the kinds are short of a thousand");
}
