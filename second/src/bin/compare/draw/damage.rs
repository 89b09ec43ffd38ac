//! Faults in an image. Some leave it acceptable, and some change nothing by chance.

use second::image::{header_bytes, shown};
use second::random::Random;

/// A kind of fault: its name, and what it does. An image too short for it stays as it is.
type Fault = (&'static str, fn(&mut Random, &mut Vec<u8>));

/// A fault of one rule, given where it starts; the first stays as it is if one before it is needed.
type RuleFault = fn(&mut Random, &mut [u8], usize);

pub const RULE_FAULTS: [RuleFault; 3] = [out_of_range, repeat, swap];

pub const FAULTS: [Fault; 16] = [
    ("cut anywhere", |random, image| {
        let length = random.below(image.len() + 1);
        image.truncate(length);
    }),
    ("cut by a few bytes", |random, image| {
        let length = image.len().saturating_sub(random.within(1, 6));
        image.truncate(length);
    }),
    ("grown by a few bytes", |random, image| {
        let bytes = random.within(1, 6);
        image.extend((0..bytes).map(|_| random.word() as u8));
    }),
    ("grown by many bytes", |random, image| {
        // Sometimes as many as 16 bits of the length don't show.
        let bytes = match random.below(8) {
            0 => 65_536,
            _ => random.within(100, 3_000),
        };
        image.extend((0..bytes).map(|_| random.word() as u8));
    }),
    ("byte of the mark", |random, image| {
        let place = random.below(3);
        change(image, place, random.word() as u8);
    }),
    ("version", |random, image| {
        let [low, high] = random.one_of(&VERSIONS).to_le_bytes();
        change(image, 3, low);
        change(image, 4, high);
    }),
    ("flag", |random, image| {
        // In version 1 it is the symbol of the first rule.
        let byte = random.one_of(&[0, 1, 2, 3, 128, 255]);
        change(image, 10, byte);
    }),
    ("number of symbols", |random, image| {
        let near = image.get(5).copied().unwrap_or(0);
        let byte = random.one_of(&[0, 1, 63, 64, 65, 255, near.wrapping_sub(1)]);
        change(image, 5, byte);
    }),
    ("numbers of rules", |random, image| {
        let place = random.within(6, 9);
        let near = image.get(place).copied().unwrap_or(0);
        let byte = random.one_of(&[0, 1, 2, 3, near.wrapping_sub(1), near.wrapping_add(1)]);
        change(image, place, byte);
    }),
    ("one rule moved to the other kind", |random, image| {
        let (from, to) = random.one_of(&[(6, 8), (8, 6)]);
        if image.len() >= 10 && image[from] > 0 && image[to] < 255 {
            image[from] -= 1;
            image[to] += 1;
        }
    }),
    ("one bit", |random, image| {
        let (place, bit) = (random.below(image.len().max(1)), random.below(8));
        let byte = image.get(place).copied().unwrap_or(0);
        change(image, place, byte ^ 1 << bit);
    }),
    ("symbol out of range", |random, image| {
        in_any_rule(random, image, out_of_range);
    }),
    ("rule repeated", |random, image| {
        in_any_rule(random, image, repeat);
    }),
    ("two rules swapped", |random, image| {
        in_any_rule(random, image, swap);
    }),
    ("rule left out", leave_out),
    ("random bytes", |random, image| {
        // Sometimes the header stays, with or without a flag, or the mark and the version.
        let keep = random.one_of(&[0, 3, 5, 10, 11]).min(image.len());
        image.truncate(keep);
        let bytes = random.below(60);
        image.extend((0..bytes).map(|_| random.word() as u8));
    }),
];

/// Those that there are, and what is near them in one byte or with the bytes swapped.
const VERSIONS: [u16; 12] = [
    0, 1, 2, 3, 255, 0x0100, 0x0101, 0x0102, 0x0200, 0x0201, 0x0202, 0xFFFF,
];

fn change(image: &mut [u8], place: usize, byte: u8) {
    if place < image.len() {
        image[place] = byte;
    }
}

/// In a rule that is in the image whole, if there is one.
fn in_any_rule(random: &mut Random, image: &mut [u8], fault: RuleFault) {
    let header = header_bytes(image);
    let rules = image.len().saturating_sub(header) / 3;
    if rules > 0 {
        let start = header + 3 * random.below(rules);
        fault(random, image, start);
    }
}

/// A byte of the rule, so that in an event rule it may be the event that changes.
fn out_of_range(random: &mut Random, image: &mut [u8], start: usize) {
    let place = start + random.below(3);
    image[place] = image[5].max(random.word() as u8);
}

fn repeat(_: &mut Random, image: &mut [u8], start: usize) {
    if start > header_bytes(image) {
        image.copy_within(start - 3..start, start);
    }
}

/// Where the length is right; it stays so, and the image is as before but for symbols that die.
fn leave_out(random: &mut Random, image: &mut Vec<u8>) {
    let Ok(grammar) = shown(image) else {
        return;
    };
    let event_rules = grammar.event_rules.len();
    let rules = event_rules + grammar.pair_rules.len();
    if rules > 0 {
        let rule = random.below(rules);
        let start = header_bytes(image) + 3 * rule;
        image.drain(start..start + 3);
        let place = if rule < event_rules { 6 } else { 8 };
        let count = u16::from_le_bytes([image[place], image[place + 1]]) - 1;
        image[place..place + 2].copy_from_slice(&count.to_le_bytes());
    }
}

fn swap(_: &mut Random, image: &mut [u8], start: usize) {
    if start > header_bytes(image) {
        image[start - 3..start + 3].rotate_left(3);
    }
}
