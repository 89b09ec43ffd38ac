//! Numbers of readings: those that there are, around the last that is told, and others.

use second::random::Random;
use second::readings::cut;

/// The last number that readings are told by, and the first that they aren't.
const LAST: u64 = 4_294_967_294;
const FIRST_UNTOLD: u64 = LAST + 1;

/// Of one of so many readings: both ends, around the last that is told, and any.
pub fn of_a_reading(random: &mut Random, total: u64) -> u64 {
    let number = match random.below(8) {
        0 => 0,
        1 => total - 1,
        2 | 3 => LAST - 1 + random.below(4) as u64,
        4 => random.word() % total,
        _ => random.below(cut(total) as usize) as u64,
    };
    number.min(total - 1)
}

/// Both ends, around the last number that there can be, and any.
pub fn any(random: &mut Random, total: u32) -> u32 {
    match random.below(9) {
        0 => 0,
        1 => total.saturating_sub(1),
        2 => total,
        3 => total.saturating_add(1),
        4 => u32::MAX - random.below(3) as u32,
        5 => random.word() as u32,
        _ => random.below(total.max(1) as usize) as u32,
    }
}

/// What there is of this number where the rules make so many readings.
pub fn what_there_is(k: u32, total: u64) -> &'static str {
    match k {
        u32::MAX if total >= u32::MAX.into() => "k past all numbers",
        _ if u64::from(k) < total => "k of a reading",
        _ => "k past the count",
    }
}

/// Where the number of a reading stands among those that are told, if that is worth telling.
pub fn place(number: u64) -> &'static str {
    match number {
        0..LAST => "",
        LAST => ", the last numbered",
        FIRST_UNTOLD => ", the first not numbered",
        u64::MAX => ", not numbered in 64 bits",
        _ => ", not numbered",
    }
}

/// What is told of a script that was spoiled if the reading's number isn't.
pub const LATE: &str = ", late";

pub fn lateness(number: u64) -> &'static str {
    match number {
        0..=LAST => "",
        _ => LATE,
    }
}
