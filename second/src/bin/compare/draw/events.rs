//! Events that are easily taken for each other.

use second::random::Random;

/// Events that differ in the low byte only, in the high byte only, and in both.
pub const EVENTS: [u16; 10] = [0, 1, 7, 255, 256, 257, 1_792, 0x8000, 0xFF00, 0xFFFF];

/// At most so many of the events.
pub fn any_events(random: &mut Random, most: usize) -> Vec<u16> {
    let mut kinds = EVENTS.to_vec();
    kinds.rotate_left(random.below(EVENTS.len()));
    kinds.truncate(random.within(1, most));
    kinds
}

pub fn but_for_one_bit(random: &mut Random, event: u16) -> u16 {
    event ^ 1 << random.below(16)
}
