//! Judging, counting and one reading where events and lent memory are bytes, each word low byte
//! first.

use crate::image::{decode, refuse_if, Refusal};
use crate::services::{count, judge, reading, Counted, Judged, Read, MOST_EVENTS};

/// A record may have so many bytes, two for each event.
pub const MOST_BYTES: usize = 2 * MOST_EVENTS;

/// Judges a record: fills the chart, gives the verdict, the items and the firings.
pub fn judge_bytes(image: &[u8], events: &[u8], chart: &mut [u8]) -> Judged {
    accept(image, events).map_or_else(Judged::from, |events| {
        let mut cells = words(chart, u64::from_le_bytes);
        let judged = judge(image, &events, &mut cells);
        put(chart, &cells, u64::to_le_bytes);
        judged
    })
}

/// Counts the readings: fills the count table, gives the total.
pub fn count_bytes(image: &[u8], events: &[u8], table: &mut [u8]) -> Counted {
    accept(image, events).map_or_else(Counted::from, |events| {
        let mut counts = words(table, u32::from_le_bytes);
        let counted = count(image, &events, &mut counts);
        put(table, &counts, u32::to_le_bytes);
        counted
    })
}

/// Gives reading number `k` as a script, and fills the count table.
pub fn reading_bytes(
    image: &[u8],
    events: &[u8],
    k: u32,
    table: &mut [u8],
    room: &mut [u8],
) -> Read {
    accept(image, events).map_or_else(Read::from, |events| {
        let mut counts = words(table, u32::from_le_bytes);
        let mut script = words(room, u16::from_le_bytes);
        let read = reading(image, &events, k, &mut counts, &mut script);
        put(table, &counts, u32::to_le_bytes);
        put(room, &script, u16::to_le_bytes);
        read
    })
}

/// The events, or the first refusal of 1 to 7, 15, 8 and 14.
fn accept(image: &[u8], events: &[u8]) -> Result<Vec<u16>, Refusal> {
    decode(image)?;
    events_in(events)
}

/// The events that the bytes show, or the first refusal of 8 and 14: 8 is judged on the bytes, and so
/// it comes first for an odd number of them above the limit.
pub fn events_in(bytes: &[u8]) -> Result<Vec<u16>, Refusal> {
    refuse_if(bytes.len() > MOST_BYTES, 8)?;
    refuse_if(bytes.len() % 2 == 1, 14)?;
    Ok(words(bytes, u16::from_le_bytes))
}

/// The whole words that the bytes show. A rest of bytes is no word.
pub fn words<const SIZE: usize, Word>(bytes: &[u8], word: fn([u8; SIZE]) -> Word) -> Vec<Word> {
    let whole = bytes.chunks_exact(SIZE);
    let word_of = |chunk: &[u8]| word(chunk.try_into().expect("as many bytes as a word has"));
    whole.map(word_of).collect()
}

/// Puts words where the bytes showed as many. A rest of bytes stays.
fn put<const SIZE: usize, Word: Copy>(
    bytes: &mut [u8],
    words: &[Word],
    bytes_of: fn(Word) -> [u8; SIZE],
) {
    for (chunk, word) in bytes.chunks_exact_mut(SIZE).zip(words) {
        chunk.copy_from_slice(&bytes_of(*word));
    }
}
