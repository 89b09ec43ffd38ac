//! Pages of readings: which are asked for, and in what rooms.

use crate::draw::numbers;
use second::random::Random;
use second::readings::cut;

/// A room that is meant to be long enough has at most so many words, or it would take long.
pub const MOST_WORDS: usize = 20_000;

/// Readings k to k + m - 1.
pub struct Page {
    pub k: u32,
    pub m: u32,
    /// How many readings the rules make.
    pub total: u64,
}

impl Page {
    /// Mostly near where the numbers end, and mostly of few scripts, each of so many words. A room of
    /// `MOST_WORDS` or less isn't enough for more than `most` that there are.
    pub fn any(random: &mut Random, total: u64, words: usize, most: u32) -> Self {
        let end = cut(total);
        let k = match random.below(2) {
            0 => numbers::any(random, end),
            _ => end.saturating_sub(random.below(9) as u32),
        };
        let m = match words {
            0 => random.one_of(&[0, 1, 2, u32::MAX]),
            _ => any_length(random, end.saturating_sub(k), words, most),
        };
        Page { k, m, total }
    }

    /// So many scripts that their words are just past 16 bits.
    pub fn long(random: &mut Random, total: u64, words: usize) -> Self {
        let m = past_bits(random, 16, words);
        let k = numbers::any(random, cut(total));
        Page { k, m, total }
    }

    /// Every page of so few readings, also those that begin or end past the last.
    pub fn every(total: u64) -> impl Iterator<Item = Page> {
        let (last_k, last_m) = (total as u32 + 1, total as u32 + 2);
        (0..=last_k).flat_map(move |k| (0..=last_m).map(move |m| Page { k, m, total }))
    }

    /// How many of its scripts there are.
    fn there(&self) -> u32 {
        cut(self.total).saturating_sub(self.k).min(self.m)
    }

    /// What there is of it.
    pub fn what(&self) -> String {
        let end = cut(self.total);
        if self.k >= end {
            let what = numbers::what_there_is(self.k, self.total);
            return match self.m {
                0 => format!("{what}, m = 0"),
                _ => what.to_string(),
            };
        }
        let end_of = match end {
            u32::MAX => "the numbers",
            _ => "the readings",
        };
        match i64::from(self.k) + i64::from(self.m) - i64::from(end) {
            _ if self.m == 0 => "m = 0".to_string(),
            ..0 if self.m == 1 => "one script".to_string(),
            ..0 => "several scripts".to_string(),
            0 => format!("up to the end of {end_of}"),
            1 => format!("one past the end of {end_of}"),
            _ if self.k.checked_add(self.m).is_some() => format!("past the end of {end_of}"),
            _ => format!("past the end of {end_of} and 32 bits"),
        }
    }

    /// Lengths of rooms that are enough if another number of scripts is judged, or if bits of the
    /// number of words are lost: one script, all but one, those that there are; or one word short.
    pub fn lengths(&self, words: usize) -> Vec<usize> {
        let all = self.m as usize * words;
        let mut lengths = vec![
            words,
            all.saturating_sub(words),
            all.saturating_sub(1),
            self.there() as usize * words,
            all & 0xFFFF,
            all & 0xFFFF_FFFF,
        ];
        lengths.retain(|&len| len <= MOST_WORDS);
        lengths
    }

    /// What is told of it if the room is too short, but long enough for the scripts that there are.
    pub fn room_for_those(&self, words: usize, len: usize) -> &'static str {
        let (there, m) = (self.there() as usize, self.m as usize);
        match len < m * words && there > 0 && len >= there * words {
            true => ROOM_FOR_THOSE,
            false => "",
        }
    }
}

pub const ROOM_FOR_THOSE: &str = ", room for those";

/// A number of scripts, where so many are left.
fn any_length(random: &mut Random, left: u32, words: usize, most: u32) -> u32 {
    match random.below(20) {
        0 => 0,
        1 => 1,
        2 => u32::MAX - random.below(2) as u32,
        3 => random.word() as u32,
        4 => past_bits(random, 16, words),
        5 => past_bits(random, 32, words),
        6..=13 if (1..=most).contains(&left) => left - 1 + random.below(4) as u32,
        14 | 15 if left <= most => left + random.within(2, 20) as u32,
        _ => random.within(1, most as usize) as u32,
    }
}

/// A number of scripts whose words are just more than so many bits can tell.
fn past_bits(random: &mut Random, bits: u32, words: usize) -> u32 {
    let all = (1_usize << bits).div_ceil(words) + random.below(3);
    all as u32
}
