//! One case: an image and a record, through every service.

use crate::calls::second_side::SECOND;
use crate::calls::side::Answer;
use crate::comparisons::session_calls::SessionCalls;
use crate::comparisons::{bytes, services, sessions};
use crate::draw::damage::FAULTS;
use crate::draw::kinds::any_kind;
use crate::draw::versions::in_any_version;
use crate::notes::tally::Tally;
use second::random::Random;

/// The case of this number. It depends on nothing but the seed and its own number.
pub fn compare(seed: u64, case: u64, tally: &mut Tally) -> Result<(), String> {
    let mut random = Random::new(Random::new(seed).word() ^ case);
    let (name, _, meant, draw) = any_kind(&mut random);
    tally.add(format!("kind: {name}"));
    let drawn = draw(&mut random);
    let (mut image, events) = in_any_version(&mut random, drawn);
    for _ in 0..random.one_of(&[0, 0, 0, 0, 0, 0, 1, 1, 2, 3]) {
        let (name, fault) = random.one_of(&FAULTS);
        tally.add(format!("damage: {name}"));
        fault(&mut random, &mut image);
    }
    let Answer { number, .. } = (SECOND.test)(&image);
    tally.add(format!("image: number {number}"));
    if number == meant {
        tally.add(format!("kind: {name}, number {number}"));
    }
    services::compare(&mut random, tally, &image, &events)?;
    sessions::compare(SessionCalls::new(&mut random, tally, &image, &events))?;
    bytes::compare(&mut random, tally, &image, &events)
}
