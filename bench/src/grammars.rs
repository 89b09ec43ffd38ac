//! Grammar images.

use crate::random::Random;

/// An image; each kind's rules are put in order here, and of equal ones one is kept.
pub fn image(symbols: u8, leaves: &[(u8, u16)], pairs: &[[u8; 3]]) -> Vec<u8> {
    let (mut leaves, mut pairs) = (leaves.to_vec(), pairs.to_vec());
    leaves.sort();
    leaves.dedup();
    pairs.sort();
    pairs.dedup();
    let mut image = b"ESG\x01\x00".to_vec();
    image.push(symbols);
    image.extend((leaves.len() as u16).to_le_bytes());
    image.extend((pairs.len() as u16).to_le_bytes());
    for (symbol, event) in leaves {
        image.push(symbol);
        image.extend(event.to_le_bytes());
    }
    image.extend(pairs.concat());
    image
}

/// The same grammar in version 2.
pub fn flagged(image: &[u8], flag: u8) -> Vec<u8> {
    let (header, rules) = image.split_at(10);
    let mut image = [header, &[flag], rules].concat();
    image[3] = 2;
    image
}

/// The largest grammar: 64 symbols that each turn into events 0 to 7, and four pair rules for each.
/// Over events 0 to 7 every cell is full; `left` says how the rules share left symbols.
pub fn largest(left: fn(usize, usize) -> usize) -> Vec<u8> {
    among_first(64, left)
}

/// The rules of the largest grammar for its first symbols, with parts modulo their number, which
/// can make rules of a symbol equal. Over events 0 to 7 these symbols stand in every cell, and no
/// others.
pub fn among_first(symbols: usize, left: fn(usize, usize) -> usize) -> Vec<u8> {
    let leaves = (0..8 * symbols).map(|r| ((r / 8) as u8, (r % 8) as u16));
    let pair = |r: usize| {
        let (s, t) = (r / 4, r % 4);
        [s, left(s, t) % symbols, (11 * s + 29 * t + 5) % symbols].map(|s| s as u8)
    };
    let mut pairs: Vec<_> = (0..4 * symbols).map(pair).collect();
    pairs.sort();
    pairs.dedup();
    with_idle(symbols as u8, &[0], leaves.collect(), pairs)
}

/// Classes of symbols from 1 on, each a cyclic group: a symbol is made of any two of its class whose
/// sum it is, and an event of 0 to 7 turns into a drawn symbol of each class. So one symbol of each
/// class stands in every cell, which one is as good as random, and at a split one rule of each class
/// fires. The start stands in no cell.
pub fn cyclic(classes: usize, size: usize, random: &mut Random) -> Vec<u8> {
    let member = |class: usize, x: usize| (1 + class * size + x % size) as u8;
    let (mut leaves, mut pairs) = (Vec::new(), Vec::new());
    for class in 0..classes {
        leaves.extend((0..8).map(|event| (member(class, random.below(size)), event)));
        for (a, b) in (0..size * size).map(|r| (r / size, r % size)) {
            pairs.push([member(class, a + b), member(class, a), member(class, b)]);
        }
    }
    let zeros: Vec<_> = (0..classes).map(|class| member(class, 0)).collect();
    with_idle(member(classes, 0), &zeros, leaves, pairs)
}

/// The image with 64 symbols and 256 pair rules. The symbols from `first` on are idle: they turn into
/// event 8, which no record has. Each rule that is added has one of them for its left symbol and
/// never fires. By these rules the start reaches the idle symbols and `reached`.
fn with_idle(
    first: u8,
    reached: &[u8],
    mut leaves: Vec<(u8, u16)>,
    mut pairs: Vec<[u8; 3]>,
) -> Vec<u8> {
    let idle: Vec<u8> = (first..64).collect();
    leaves.extend(idle.iter().map(|&symbol| (symbol, 8)));
    let both = idle.iter().cycle().zip(reached.iter().cycle());
    let enough = idle.len().max(reached.len());
    pairs.extend(both.take(enough).map(|(&left, &right)| [0, left, right]));
    let mut random = Random::new(1);
    fill_up(&mut pairs, || {
        let left = idle[random.below(idle.len())];
        [random.below(64) as u8, left, random.below(64) as u8]
    });
    image(64, &leaves, &pairs)
}

/// Draws pair rules until there are 256 different ones.
fn fill_up(pairs: &mut Vec<[u8; 3]>, mut draw: impl FnMut() -> [u8; 3]) {
    while pairs.len() < 256 {
        let pair = draw();
        if !pairs.contains(&pair) {
            pairs.push(pair);
        }
    }
}

/// 256 pair rules drawn at random, and half of the largest number of event rules. Only half of the
/// symbols have pair rules: where all have, the longer stretches get all symbols or none.
pub fn any_half(random: &mut Random) -> Vec<u8> {
    let mut leaves: Vec<_> = (0..512).map(|r| ((r / 8) as u8, r % 8)).collect();
    while leaves.len() > 256 {
        leaves.swap_remove(random.below(leaves.len()));
    }
    let mut pairs = Vec::new();
    fill_up(&mut pairs, || {
        [random.below(32), random.below(64), random.below(64)].map(|s| s as u8)
    });
    image(64, &leaves, &pairs)
}

/// Sixteen pairs of symbols from 32 on say whether a count over the stretch is even or odd: one of
/// a pair stands in every cell, and which one is as good as random. Symbols 0 to 31 stand in every
/// cell; their rules come in twos, one for each symbol of such a pair, and one of the two fires. So
/// of the rules with one left symbol half fire, and a shortcut for all or none never applies.
pub fn mixed(random: &mut Random) -> Vec<u8> {
    let parity = |u: usize, odd: usize| (32 + 2 * (u % 16) + odd) as u8;
    let (mut leaves, mut pairs) = (Vec::new(), Vec::new());
    for event in 0..8 {
        leaves.extend((0..32).map(|symbol| (symbol, event)));
        leaves.extend((0..16).map(|u| (parity(u, random.below(2)), event)));
    }
    for (u, a, b) in (0..64).map(|r| (r / 4, r / 2 % 2, r % 2)) {
        pairs.push([parity(u, a ^ b), parity(u, a), parity(u, b)]);
    }
    for (s, t, odd) in (0..192).map(|r| (r / 6, r / 2 % 3, r % 2)) {
        let left = (5 * s + 11 * t) % 32;
        pairs.push([s as u8, left as u8, parity(3 * s + 5 * t, odd)]);
    }
    image(64, &leaves, &pairs)
}

/// 64 symbols, of which the last turns into an event. The start is made of the last, and every other
/// one both of its neighbours on either side. As the rules are in order, a search from the event
/// upward finds one symbol in each round of them, and so does one from the start downward.
pub fn one_each_round() -> Vec<u8> {
    let beside = |s: u8, next: u8| [[s, next, next], [s, next, 63]];
    let mut pairs = vec![[0, 63, 63]];
    pairs.extend((1..63).flat_map(|s| beside(s, s + 1)));
    pairs.extend((2..64).flat_map(|s| beside(s, s - 1)));
    image(64, &[(63, 7)], &pairs)
}

pub fn chain() -> Vec<u8> {
    image(1, &[(0, 7)], &[[0, 0, 0]])
}

/// The start turns into CHAIN over event 7 and then CHAIN over event 8.
pub fn two_chains() -> Vec<u8> {
    image(3, &[(1, 7), (2, 8)], &[[0, 1, 2], [1, 1, 1], [2, 2, 2]])
}

/// The start turns into CHAIN over event 7 and then either of two CHAINs over event 8.
pub fn three_chains() -> Vec<u8> {
    let mut pairs = vec![[0, 1, 2], [0, 1, 3]];
    pairs.extend([1, 2, 3].map(|chain| [chain; 3]));
    image(4, &[(1, 7), (2, 8), (3, 8)], &pairs)
}

/// The start turns into event 7, and is made of itself and one event 7 behind it.
pub fn one_by_one() -> Vec<u8> {
    image(2, &[(0, 7), (1, 7)], &[[0, 0, 1]])
}

/// Sixteen symbols turn into event 7, and the start is made of any two of them.
pub fn any_two() -> Vec<u8> {
    let leaves: Vec<_> = (0..16).map(|symbol| (symbol, 7)).collect();
    let pairs: Vec<_> = (0..=255).map(|r| [0, r / 16, r % 16]).collect();
    image(16, &leaves, &pairs)
}

/// Symbols: 0 shift, 60 stop, 61 and 62 press, 63 release. A shift is made of stops, and each of a
/// press and a release: since both presses turn into event 1, every stop is read in two ways. The
/// other symbols turn into event 8, which no record has. Their 251 rules are the start's: they never
/// fire, and stand before its rules that do.
pub fn forked() -> Vec<u8> {
    let mut leaves = vec![(61, 1), (62, 1), (63, 2)];
    leaves.extend((1..60).map(|idle| (idle, 8)));
    let mut pairs = vec![[0, 60, 0]];
    pairs.extend([0, 60].map(|made| [made, 61, 63]));
    pairs.extend([0, 60].map(|made| [made, 62, 63]));
    pairs.extend((0..251).map(|r| [0, 1 + r % 59, 1 + r / 59]));
    image(64, &leaves, &pairs)
}

/// Symbols: 0 day, 1 stop, 2 press, 3 tail, 4 relay, 5 reset.
pub fn stop() -> Vec<u8> {
    stop_and(6, &[], &[])
}

/// STOP with that many symbols and with more rules.
pub fn stop_and(symbols: u8, leaves: &[(u8, u16)], pairs: &[[u8; 3]]) -> Vec<u8> {
    let leaves = [&[(2, 1), (4, 2), (5, 3)], leaves].concat();
    let pairs = [&[[0, 1, 0], [0, 2, 3], [1, 2, 3], [3, 4, 5]], pairs].concat();
    image(symbols, &leaves, &pairs)
}
