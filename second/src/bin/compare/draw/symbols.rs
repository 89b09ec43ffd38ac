//! The symbols of an image that may be refused, as a number and as bits.

/// N, as far as that can be told of a refused image.
pub fn symbols_shown(image: &[u8]) -> usize {
    image.get(5).map_or(1, |&n| n.clamp(1, 64).into())
}

/// The bits of so many symbols.
pub fn symbol_bits(n: usize) -> u64 {
    u64::MAX >> (64 - n)
}
