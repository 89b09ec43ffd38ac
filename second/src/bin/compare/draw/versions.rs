//! Cases in both versions.

use crate::draw::records::Drawn;
use second::examples::version_2;
use second::random::Random;

/// What was drawn, as it is or in version 2, and sometimes with an empty record, which alone the
/// flag is about.
pub fn in_any_version(random: &mut Random, (mut image, mut events): Drawn) -> Drawn {
    if random.once_in(2) {
        image = version_2(&image, any_flag(random));
    }
    if random.once_in(12) {
        events.clear();
    }
    (image, events)
}

/// Mostly one of the two that are accepted.
fn any_flag(random: &mut Random) -> u8 {
    match random.below(10) {
        0..=3 => 0,
        4..=8 => 1,
        _ => random.word() as u8,
    }
}
