//! Numbers of events that are easily got wrong.

use second::random::Random;
use second::services::MOST_EVENTS;

/// Around the bits of a byte, of half a word and of a word, and around the limit.
pub const LENGTHS: [usize; 11] = [1, 2, 15, 16, 17, 63, 64, 65, 66, 95, MOST_EVENTS];

/// Those of them that have splits past the bits of a word.
pub const PAST_WORD: [usize; 4] = [65, 66, 95, MOST_EVENTS];

/// The longest records, but for some that are very much too long.
pub const LONGEST: usize = MOST_EVENTS + 4;

/// A number of events around the limit, often the limit itself, or around the bits of a word.
pub fn long(random: &mut Random) -> usize {
    match random.below(8) {
        0..=2 => MOST_EVENTS,
        3 => MOST_EVENTS + 1,
        4 => random.within(62, 66),
        _ => random.within(MOST_EVENTS - 6, LONGEST),
    }
}
