//! `judge`, `count` and `reading` on bytes: the events are decoded, the service works on words that
//! are kept from call to call, and those that it needs are encoded.

use super::{count, judge, low_first, reading, test_image};
use crate::answers::{Counted, Judged, Refusal};
use crate::bytes::put;
use crate::sizes::{cells, script_words, MOST_EVENTS};

pub fn judge_bytes(image: &[u8], events: &[u8], chart: &mut [u8], words: &mut Vec<u64>) -> Judged {
    let mut decoded = [0; MOST_EVENTS];
    let events = match events_in(image, events, &mut decoded) {
        Ok(events) => events,
        Err(refusal) => return refusal.into(),
    };
    words.resize(chart.len() / 8, 0);
    let judged = judge(image, events, words);
    if judged.refusal.number == 0 {
        put(&words[..cells(events.len())], chart);
    }
    judged
}

pub fn count_bytes(image: &[u8], events: &[u8], table: &mut [u8], words: &mut Vec<u32>) -> Counted {
    let mut decoded = [0; MOST_EVENTS];
    let events = match events_in(image, events, &mut decoded) {
        Ok(events) => events,
        Err(refusal) => return refusal.into(),
    };
    words.resize(table.len() / 4, 0);
    let counted = count(image, events, words);
    if counted.refusal.number == 0 {
        put(&words[..table_words(image, events)], table);
    }
    counted
}

pub fn reading_bytes(
    image: &[u8],
    events: &[u8],
    k: u32,
    table: &mut [u8],
    script: &mut [u8],
    (counts, nodes): &mut (Vec<u32>, Vec<u16>),
) -> Refusal {
    let mut decoded = [0; MOST_EVENTS];
    let events = match events_in(image, events, &mut decoded) {
        Ok(events) => events,
        Err(refusal) => return refusal,
    };
    counts.resize(table.len() / 4, 0);
    nodes.resize(script.len() / 2, 0);
    let refusal = reading(image, events, k, counts, nodes);
    // 12 and 13 leave a table too.
    if [0, 12, 13].contains(&refusal.number) {
        put(&counts[..table_words(image, events)], table);
    }
    if refusal.number == 0 {
        put(&nodes[..script_words(events.len())], script);
    }
    refusal
}

/// The words of a count table, given an accepted image.
fn table_words(image: &[u8], events: &[u16]) -> usize {
    cells(events.len()) * image[5] as usize
}

/// The events, or a refusal where 8 or 14 applies: that of the image comes first.
fn events_in<'a>(
    image: &[u8],
    bytes: &[u8],
    decoded: &'a mut [u16; MOST_EVENTS],
) -> Result<&'a [u16], Refusal> {
    let number = match bytes.len() {
        len if len > 2 * MOST_EVENTS => 8,
        len if len % 2 == 1 => 14,
        _ => 0,
    };
    if number > 0 {
        test_image(image)?;
        return Err(number.into());
    }
    let events = &mut decoded[..bytes.len() / 2];
    for (event, bytes) in events.iter_mut().zip(bytes.chunks_exact(2)) {
        *event = low_first(bytes, 0);
    }
    Ok(events)
}
