//! The service that numbers a script, and the one that it undoes.

use second::derive::cells;
use second::services::{count, number, reading, Numbered};
use second::trees::script_words;

/// The last number that is told.
pub const LAST: u64 = 4_294_967_294;

/// Words of which no two are equal, so that one written or moved is seen.
pub fn room(words: usize) -> Vec<u32> {
    let words = 1..=words as u32;
    words.map(|word| word.wrapping_mul(1_000_003)).collect()
}

/// The answer, if the table is left as a count leaves it, and two words past the need as they were.
pub fn numbered(image: &[u8], events: &[u16], script: &[u16]) -> Numbered {
    let need = usize::from(image[5]) * cells(events.len());
    let (mut table, mut counted) = (room(need + 2), room(need + 2));
    let answer = number(image, events, script, &mut table);
    assert_eq!(count(image, events, &mut counted).number, 0);
    assert_eq!(table, counted);
    assert_eq!(table[need..], room(need + 2)[need..]);
    answer
}

pub fn refused(number: u8) -> Numbered {
    Numbered {
        number,
        ..Numbered::default()
    }
}

/// What must be said of the reading that so many come before, or of none.
pub fn told(number: Option<u64>) -> Numbered {
    match number {
        None => refused(12),
        Some(number) if number > LAST => refused(13),
        Some(number) => Numbered {
            reading: number as u32,
            ..Numbered::default()
        },
    }
}

/// The script of reading `k`, of which there must be one.
pub fn script(image: &[u8], events: &[u16], k: u32) -> Vec<u16> {
    let mut script = vec![7; script_words(events.len())];
    let mut table = room(usize::from(image[5]) * cells(events.len()));
    assert_eq!(reading(image, events, k, &mut table, &mut script).number, 0);
    script
}
