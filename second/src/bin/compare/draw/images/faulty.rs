//! Images that are refused by what they say of themselves: rules at fault, and headers alone.

use crate::draw::damage::RULE_FAULTS;
use crate::draw::images::dead::one_dead_case;
use crate::draw::images::sizes::{full_case, wide};
use crate::draw::records::Drawn;
use second::drawn::live_image;
use second::examples::image;
use second::image::{header_bytes, shown};
use second::random::Random;

/// Rules at fault, mostly of many: any, or one whose number is easily got wrong. Dead symbols too
/// sometimes, which are refused after them.
pub fn faulty_case(random: &mut Random) -> Drawn {
    let (mut image, events) = match random.below(5) {
        0 | 1 => wide(random, live_image),
        2 | 3 => full_case(random, 64, 512, 256, 3),
        _ => one_dead_case(random),
    };
    let grammar = shown(&image).expect("symbols and rules within their limits");
    let first_pair = grammar.event_rules.len();
    let end = first_pair + grammar.pair_rules.len();
    for _ in 0..random.within(1, 4) {
        let rule = match random.below(8) {
            0 => random.one_of(&[0, 1, 255, 256]),
            1 => (first_pair + random.below(4)).saturating_sub(2),
            2 => end.saturating_sub(1),
            _ => random.below(end.max(1)),
        };
        if rule < end {
            let start = header_bytes(&image) + 3 * rule;
            random.one_of(&RULE_FAULTS)(random, &mut image, start);
        }
    }
    (image, events)
}

/// Ten bytes, whatever numbers of rules they name; half of them claim to be version 2, which has one
/// more. An empty record often, which a flag would admit without any rule but for dead symbols.
pub fn header_case(random: &mut Random) -> Drawn {
    let symbols = random.one_of(&[0, 1, 1, 1, 64, 65]);
    let event_rules: u16 = random.one_of(&[0, 0, 0, 0, 1, 512, 513]);
    let pair_rules: u16 = random.one_of(&[0, 0, 0, 0, 1, 256, 257]);
    let mut image = image(symbols, &[], &[]);
    image[3] = random.one_of(&[1, 2]);
    image[6..8].copy_from_slice(&event_rules.to_le_bytes());
    image[8..10].copy_from_slice(&pair_rules.to_le_bytes());
    let n = random.below(2);
    (image, vec![7; n])
}
