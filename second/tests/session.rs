//! Sessions: columns worked out by hand, sessions that nobody has grown, and grown ones beside fresh
//! judgements.

mod small;

use second::derive::cells;
use second::examples::{chain, faulty, image, image_of, largest, misspelt, stop, version_2};
use second::random::Random;
use second::services::{judge, Judged};
use second::session::{add, begin, take_back, Added, Session, CHART_WORDS};
use small::small;

/// Counts for which nothing can be added or taken back, though fewer bits of some tell of few events.
const TOO_LARGE: [u64; 9] = [
    33,
    40,
    256 + 5,
    65_536 + 5,
    1 << 32,
    (1 << 32) + 5,
    1 << 63,
    (1 << 63) + 5,
    u64::MAX,
];

fn added(admitted: bool, firings: u64) -> Added {
    Added {
        number: 0,
        rule: 0,
        admitted,
        firings,
    }
}

fn refused(number: u8, rule: u16) -> Added {
    Added {
        number,
        rule,
        ..Added::default()
    }
}

/// With these words first, and so many events; the other words are all the same.
fn session(words: &[u64], others: u64, count: u64) -> Session {
    let mut chart = [others; CHART_WORDS];
    chart[..words.len()].copy_from_slice(words);
    Session { chart, count }
}

/// 0 turns into 7, 1 into 7 and 8; 0 into 0 0, 0 1 and 1 1.
fn branching() -> Vec<u8> {
    image(
        2,
        &[(0, 7), (1, 7), (1, 8)],
        &[(0, 0, 0), (0, 0, 1), (0, 1, 1)],
    )
}

/// An image, and for each event its column's words, from (0, k) on, the verdict and the firings.
type Row = (Vec<u8>, Vec<(u16, Vec<u64>, bool, u64)>);

/// Worked out by hand.
fn rows() -> Vec<Row> {
    vec![
        (
            chain(),
            vec![
                (7, vec![1], true, 1),
                (7, vec![1, 1], true, 2),
                (7, vec![1, 1, 1], true, 4),
                (7, vec![1, 1, 1, 1], true, 7),
                (8, vec![0; 5], false, 0),
                (7, vec![0, 0, 0, 0, 0, 1], false, 1),
            ],
        ),
        (
            stop(),
            vec![
                (1, vec![1 << 2], false, 1),
                (2, vec![0, 1 << 4], false, 1),
                (3, vec![0b11, 1 << 3, 1 << 5], true, 4),
                (1, vec![0, 0, 0, 1 << 2], false, 1),
            ],
        ),
        (
            branching(),
            vec![
                (7, vec![0b11], true, 2),
                (8, vec![0b01, 0b10], true, 3),
                (7, vec![0b01, 0b01, 0b11], true, 6),
            ],
        ),
    ]
}

/// Column after column, and back again.
#[test]
fn columns_one_by_one() {
    for (image, columns) in rows() {
        let (mut grown, mut earlier) = (begin(), Vec::new());
        let mut words = Vec::new();
        for (event, column, admitted, firings) in columns {
            earlier.push(grown);
            words.extend(column);
            let count = earlier.len() as u64;
            let told = (session(&words, 0, count), added(admitted, firings));
            assert_eq!(add(&image, grown, event), told);
            grown = told.0;
        }
        while let Some(shorter) = earlier.pop() {
            assert_eq!(take_back(grown), (shorter, 0));
            grown = shorter;
        }
        assert_eq!(grown, begin());
        assert_eq!(take_back(grown), (begin(), 18));
    }
}

#[test]
fn begins_empty() {
    assert_eq!(begin(), session(&[], 0, 0));
    assert_eq!(begin().chart.len(), 528);
}

/// An event that comes after one taken back is added as if that had never come.
#[test]
fn another_event_in_its_place() {
    let (one, _) = add(&chain(), begin(), 7);
    let (wrong, told) = add(&chain(), one, 8);
    assert_eq!((wrong, told), (session(&[1], 0, 2), added(false, 0)));
    let (right, told) = add(&chain(), take_back(wrong).0, 7);
    assert_eq!((right, told), (session(&[1; 3], 0, 2), added(true, 2)));
}

/// What is older counts as it stands, the column's own words don't count, and all others stay.
#[test]
fn strange_sessions() {
    const ALL: u64 = u64::MAX;
    let add_7 = |words: &[u64], others, count| add(&chain(), session(words, others, count), 7);
    let told = |words: &[u64], others, count, admitted, firings| {
        (session(words, others, count), added(admitted, firings))
    };
    assert_eq!(add_7(&[], ALL, 0), told(&[1], ALL, 1, true, 1));
    assert_eq!(add_7(&[], ALL, 1), told(&[ALL, 1, 1], ALL, 2, true, 2));
    // Only a symbol that CHAIN doesn't have stands where the left part must be.
    let but_0 = ALL - 1;
    assert_eq!(add_7(&[], but_0, 1).0, session(&[but_0, 0, 1], but_0, 2));
    assert_eq!(add_7(&[], but_0, 1).1, added(false, 1));
    // (0, 2) is made up of nothing, and (0, 3) of it.
    let words = [0, 1, 0];
    let (grown, answer) = add_7(&words, 9, 2);
    assert_eq!(grown, session(&[0, 1, 0, 1, 0, 1], 9, 3));
    assert_eq!(answer, added(true, 2));
    // Nothing of an event of no rule, whatever stood there.
    for count in 0..32 {
        let (grown, answer) = add(&chain(), session(&[], ALL, count), 8);
        let mut after = session(&[], ALL, count + 1);
        let k = count as usize + 1;
        after.chart[cells(k - 1)..cells(k)].fill(0);
        assert_eq!((grown, answer), (after, added(false, 0)));
    }
}

/// Each image has its say on what it finds.
#[test]
fn another_image() {
    let (grown, _) = add(&chain(), begin(), 7);
    let told = (session(&[0b01, 0b01, 0b10], 0, 2), added(true, 2));
    assert_eq!(add(&branching(), grown, 8), told);
    let told = (session(&[0b01, 0b01, 0b10, 1, 0, 1], 0, 3), added(true, 2));
    assert_eq!(add(&chain(), add(&branching(), grown, 8).0, 7), told);
}

/// Every left part is there, and every symbol turns into the event: a column of all symbols, and as
/// many firings as it can have.
#[test]
fn largest_column() {
    let full = session(&[], u64::MAX, 31);
    let told = (session(&[], u64::MAX, 32), added(true, 127_040));
    assert_eq!(add(&largest(), full, 5), told);
    let mut none = told.0;
    none.chart[496..].fill(0);
    assert_eq!(add(&largest(), full, 8), (none, added(false, 0)));
}

#[test]
fn taken_back_from_strange_sessions() {
    for count in 1..=32 {
        let (shorter, number) = take_back(session(&[], 9, count));
        let mut told = session(&[], 9, count - 1);
        let k = count as usize;
        told.chart[cells(k - 1)..cells(k)].fill(0);
        assert_eq!((shorter, number), (told, 0));
    }
    for count in [0].into_iter().chain(TOO_LARGE) {
        let strange = session(&[1, 2, 3], 9, count);
        assert_eq!(take_back(strange), (strange, 18));
    }
}

/// 17 at 32 or more, after all refusals of the image.
#[test]
fn full_sessions() {
    for count in [32].into_iter().chain(TOO_LARGE) {
        for words in [0, 9, u64::MAX] {
            let full = session(&[], words, count);
            let number_of = |image: &[u8]| {
                let (after, answer) = add(image, full, 1);
                assert_eq!(after, full);
                answer
            };
            assert_eq!(number_of(&stop()), refused(17, 0));
            assert_eq!(number_of(&version_2(&stop(), 1)), refused(17, 0));
            assert_eq!(number_of(&stop()[..9]), refused(1, 0));
            assert_eq!(number_of(b"ESH\x01\x00\x01\x00\x00\x00\x00"), refused(2, 0));
            assert_eq!(number_of(b"ESG\x03\x00\x01\x00\x00\x00\x00"), refused(3, 0));
            assert_eq!(number_of(&version_2(&stop(), 2)), refused(4, 0));
            assert_eq!(number_of(&stop()[..30]), refused(5, 0));
            assert_eq!(number_of(&faulty(stop(), &[4, 6], &[])), refused(6, 4));
            assert_eq!(number_of(&faulty(stop(), &[], &[2, 4])), refused(7, 2));
            assert_eq!(number_of(&misspelt()), refused(15, 0));
        }
    }
}

/// What a fresh judgement finds, with its chart and zeros behind it.
fn judged(image: &[u8], events: &[u16]) -> (Session, Judged) {
    let mut fresh = begin();
    let judged = judge(image, events, &mut fresh.chart);
    fresh.count = events.len() as u64;
    (fresh, judged)
}

/// Up to 32 events, and refused from there on.
fn grown_beside_fresh(image: &[u8], events: &[u16]) -> Session {
    let (mut grown, mut firings) = (begin(), 0);
    for n in 1..=events.len() {
        let (longer, answer) = add(image, grown, events[n - 1]);
        if n > 32 {
            assert_eq!((longer, answer), (grown, refused(17, 0)));
            continue;
        }
        let (fresh, judged) = judged(image, &events[..n]);
        firings += answer.firings;
        assert_eq!((judged.number, judged.firings), (0, firings));
        assert_eq!(answer, added(judged.admitted, answer.firings));
        assert_eq!(longer, fresh);
        assert_eq!(take_back(longer), (grown, 0));
        grown = longer;
    }
    grown
}

#[test]
fn grown_sessions_of_the_rows() {
    let stops: Vec<_> = (0..35).map(|place| 1 + place % 3).collect();
    grown_beside_fresh(&stop(), &stops);
    let full = grown_beside_fresh(&chain(), &[7; 35]);
    assert_eq!(full, session(&[], 1, 32));
    let events: Vec<_> = (0..33).map(|place| place % 8).collect();
    let full = grown_beside_fresh(&largest(), &events);
    assert_eq!(full, session(&[], u64::MAX, 32));
}

#[test]
fn grown_sessions_of_small_grammars() {
    let mut random = Random::new(12);
    let mut admitted = 0;
    for _ in 0..300 {
        let (grammar, events) = small(&mut random);
        let n = random.one_of(&[6, 12, 33]);
        let events: Vec<_> = events.iter().cycle().take(n).copied().collect();
        let grown = grown_beside_fresh(&image_of(&grammar), &events);
        admitted += grown.chart[cells(grown.count as usize - 1)] & 1;
    }
    assert!((50..250).contains(&admitted), "{admitted}");
}

/// The flag is about a record without events, and of that nothing is said.
#[test]
fn the_flag_admits_no_event() {
    for flag in [0, 1] {
        let image = version_2(&chain(), flag);
        let wrong = (session(&[], 0, 1), added(false, 0));
        assert_eq!(add(&image, begin(), 8), wrong);
        let right = (session(&[1], 0, 1), added(true, 1));
        assert_eq!(add(&image, begin(), 7), right);
    }
}
