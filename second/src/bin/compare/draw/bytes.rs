//! Records and lent memory as bytes: how many there are of them.

use second::random::Random;

/// Around the limit, even and odd.
pub const AROUND_LIMIT: [usize; 4] = [191, 192, 193, 194];

/// The events as bytes mostly; or a byte less, a byte more, or as many as are around the limit, in
/// which the events begin again where they end. Those take long and are rare.
pub fn event_bytes(random: &mut Random, events: &[u16]) -> Vec<u8> {
    let mut bytes: Vec<u8> = events.iter().flat_map(|e| e.to_le_bytes()).collect();
    let len = match random.below(48) {
        0 => random.one_of(&AROUND_LIMIT),
        1..=3 => bytes.len().saturating_sub(1),
        4..=6 => bytes.len() + 1,
        _ => bytes.len(),
    };
    if bytes.is_empty() {
        bytes = vec![7, 0];
    }
    bytes.into_iter().cycle().take(len).collect()
}

/// A number of bytes for so many words of this size: mostly just enough or more, by words, by a rest
/// of bytes or by both; sometimes too few, and then often by a few bytes, or enough if bytes were
/// taken for words.
pub fn any_length(random: &mut Random, words: usize, size: usize) -> usize {
    let need = words * size;
    let more = size * random.within(1, 5);
    let rest = random.within(1, size - 1);
    match random.below(32) {
        0 => 0,
        1 => random.below(need + 1),
        2 => need.saturating_sub(1),
        3 => need.saturating_sub(rest),
        4 => need.saturating_sub(size),
        5 => words,
        6 | 7 => need + 1,
        8..=11 => need + rest,
        12..=15 => need + more,
        16..=19 => need + more + rest,
        _ => need,
    }
}
