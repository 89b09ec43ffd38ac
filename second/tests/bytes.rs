//! The services on bytes: what each byte holds after a call, and the refusals that are theirs.

use second::bytes::{count_bytes, judge_bytes, reading_bytes};
use second::examples::{chain, image, largest, misspelt, stop, version_2, wide};
use second::services::{Counted, Judged, Read};

/// What every lent byte holds before a call: no word of a result here has such a byte.
const KEPT: u8 = 0xA5;

/// The events 7 7 7, and 1 2 3.
const SEVENS: [u8; 6] = [7, 0, 7, 0, 7, 0];
const ONE_STOP: [u8; 6] = [1, 0, 2, 0, 3, 0];

/// The count table of CHAIN over 7 7 7: two readings over all three events.
const OF_SEVENS: [u8; 24] = [
    1, 0, 0, 0, 1, 0, 0, 0, 1, 0, 0, 0, 2, 0, 0, 0, 1, 0, 0, 0, 1, 0, 0, 0,
];

/// The words of both readings, 1 1 0 1 1 2 0 2 0 3 and 1 2 1 1 0 1 0 2 0 3.
const READINGS: [[u8; 20]; 2] = [
    [1, 0, 1, 0, 0, 0, 1, 0, 1, 0, 2, 0, 0, 0, 2, 0, 0, 0, 3, 0],
    [1, 0, 2, 0, 1, 0, 1, 0, 0, 0, 1, 0, 0, 0, 2, 0, 0, 0, 3, 0],
];

fn judged(admitted: bool, items: u64, firings: u64) -> Judged {
    Judged {
        number: 0,
        rule: 0,
        admitted,
        items,
        firings,
    }
}

fn counted(total: u32) -> Counted {
    Counted {
        number: 0,
        rule: 0,
        total,
    }
}

/// An answer with this number and zeros elsewhere.
fn read(number: u8) -> Read {
    Read { number, rule: 0 }
}

/// The bytes that were written, and behind them those that weren't.
fn and_kept(written: &[u8], kept: usize) -> Vec<u8> {
    [written, &vec![KEPT; kept]].concat()
}

/// In rooms that are just enough, that have a rest, and that are longer by words with and without one.
#[test]
fn chart_of_chain() {
    let word = [1, 0, 0, 0, 0, 0, 0, 0];
    for more in 0..=17 {
        let mut chart = vec![KEPT; 48 + more];
        let answer = judge_bytes(&chain(), &SEVENS, &mut chart);
        assert_eq!(answer, judged(true, 6, 7));
        assert_eq!(chart, and_kept(&[word; 6].concat(), more));
    }
}

#[test]
fn table_of_chain() {
    for more in 0..=9 {
        let mut table = vec![KEPT; 24 + more];
        assert_eq!(count_bytes(&chain(), &SEVENS, &mut table), counted(2));
        assert_eq!(table, and_kept(&OF_SEVENS, more));
    }
}

#[test]
fn readings_of_chain() {
    for (k, script) in READINGS.iter().enumerate() {
        for more in 0..=5 {
            let (mut table, mut room) = (vec![KEPT; 24 + more], vec![KEPT; 20 + more]);
            let answer = reading_bytes(&chain(), &SEVENS, k as u32, &mut table, &mut room);
            assert_eq!(answer, read(0));
            assert_eq!(table, and_kept(&OF_SEVENS, more));
            assert_eq!(room, and_kept(script, more));
        }
    }
}

#[test]
fn chart_of_stop() {
    let mut chart = [KEPT; 51];
    let answer = judge_bytes(&stop(), &ONE_STOP, &mut chart);
    assert_eq!(answer, judged(true, 6, 6));
    let lows = [1 << 2, 0, 1 << 4, 3, 1 << 3, 1 << 5];
    let words = lows.map(|low| [low, 0, 0, 0, 0, 0, 0, 0]);
    assert_eq!(chart[..], and_kept(&words.concat(), 3));
}

/// A cell has six words here, one for each symbol.
#[test]
fn reading_of_stop() {
    let lows = [
        [0, 0, 1, 0, 0, 0],
        [0, 0, 0, 0, 0, 0],
        [0, 0, 0, 0, 1, 0],
        [1, 1, 0, 0, 0, 0],
        [0, 0, 0, 1, 0, 0],
        [0, 0, 0, 0, 0, 1],
    ];
    let words: Vec<u8> = lows.concat().iter().flat_map(|&l| [l, 0, 0, 0]).collect();
    let (mut table, mut room) = ([KEPT; 147], [KEPT; 21]);
    assert_eq!(count_bytes(&stop(), &ONE_STOP, &mut table), counted(1));
    assert_eq!(table[..], and_kept(&words, 3));
    table = [KEPT; 147];
    let answer = reading_bytes(&stop(), &ONE_STOP, 0, &mut table, &mut room);
    assert_eq!(answer, read(0));
    let script = [
        4, 0, 1, 0, 0, 0, 1, 0, 6, 0, 2, 0, 1, 0, 2, 0, 2, 0, 3, 0, KEPT,
    ];
    assert_eq!((table[..].to_vec(), room), (and_kept(&words, 3), script));
}

/// Words that need more than one byte.
#[test]
fn low_byte_first() {
    let of_256 = image(1, &[(0, 256)], &[]);
    assert!(judge_bytes(&of_256, &[0, 1], &mut [0; 8]).admitted);
    assert!(!judge_bytes(&of_256, &[1, 0], &mut [0; 8]).admitted);

    let mut chart = [KEPT; 8];
    judge_bytes(&wide(9), &[7, 0], &mut chart);
    assert_eq!(chart, [0xFF, 1, 0, 0, 0, 0, 0, 0]);

    // Twenty 7s have 1,767,263,190 readings, or 69564BD6 hexadecimal; their cell is the last but 19.
    let mut table = [KEPT; 840];
    let answer = count_bytes(&chain(), &SEVENS[..2].repeat(20), &mut table);
    assert_eq!(answer, counted(0x6956_4BD6));
    assert_eq!(table[760..764], [0xD6, 0x4B, 0x56, 0x69]);

    // The first pair rule, 512, turns 0 into 0 7, which turn into event 0 by the rules 0 and 56.
    let (mut table, mut room) = ([KEPT; 768], [KEPT; 12]);
    let answer = reading_bytes(&largest(), &[0; 4], 0, &mut table, &mut room);
    assert_eq!(answer, read(0));
    assert_eq!(room, [0, 2, 1, 0, 0, 0, 1, 0, 56, 0, 2, 0]);
}

/// The numbers of judge, count and reading, if nothing was written.
fn untouched(image: &[u8], events: &[u8], rooms: [usize; 3]) -> [u8; 3] {
    let [mut chart, mut table, mut room] = rooms.map(|len| vec![KEPT; len]);
    let judged = judge_bytes(image, events, &mut chart);
    assert_eq!(
        Judged {
            number: 0,
            ..judged
        },
        Judged::default()
    );
    let counted = count_bytes(image, events, &mut table);
    assert_eq!(
        Counted {
            number: 0,
            ..counted
        },
        Counted::default()
    );
    let answer = reading_bytes(image, events, 0, &mut table, &mut room);
    assert_eq!(answer.rule, 0);
    assert_eq!([chart, table, room], rooms.map(|len| vec![KEPT; len]));
    [judged.number, counted.number, answer.number]
}

/// By a byte, by some, by a word, and wholly. As many bytes as words are needed are too few.
#[test]
fn rooms_too_short() {
    for [chart, table] in [[47, 23], [41, 21], [40, 20], [39, 19], [6, 6], [0, 0]] {
        let numbers = untouched(&chain(), &SEVENS, [chart, table, 20]);
        assert_eq!(numbers, [9, 10, 10], "{chart} and {table} bytes");
    }
    for len in [19, 18, 17, 10, 1, 0] {
        let (mut table, mut room) = ([KEPT; 24], vec![KEPT; len]);
        let answer = reading_bytes(&chain(), &SEVENS, 0, &mut table, &mut room);
        assert_eq!(answer, read(11));
        assert_eq!((table, room), ([KEPT; 24], vec![KEPT; len]));
    }
}

/// 8 is judged on bytes, and comes before 14, and both before what is lent too short.
#[test]
fn bytes_of_events() {
    for (bytes, number) in [
        (1, 14),
        (3, 14),
        (191, 14),
        (193, 8),
        (194, 8),
        (195, 8),
        (256 + 191, 8),
        (65_536 + 6, 8),
        (65_536 + 191, 8),
    ] {
        let events = vec![7; bytes];
        for rooms in [[0; 3], [37_248, 18_624, 764]] {
            assert_eq!(untouched(&chain(), &events, rooms), [number; 3]);
        }
    }
    for bytes in [190, 192] {
        let events = SEVENS[..2].repeat(bytes / 2);
        let (mut chart, mut table, mut room) = ([KEPT; 37_248], [KEPT; 18_624], [KEPT; 764]);
        assert_eq!(judge_bytes(&chain(), &events, &mut chart).number, 0);
        assert_eq!(count_bytes(&chain(), &events, &mut table).number, 0);
        let answer = reading_bytes(&chain(), &events, 0, &mut table, &mut room);
        assert_eq!(answer, read(0));
    }
}

/// Every refusal of the image before those of the events.
#[test]
fn image_first() {
    for (number, image) in [
        (1, b"ESG".to_vec()),
        (5, [chain(), vec![0]].concat()),
        (15, misspelt()),
    ] {
        for bytes in [0, 1, 2, 191, 192, 193] {
            assert_eq!(untouched(&image, &vec![7; bytes], [0; 3]), [number; 3]);
        }
    }
}

#[test]
fn refusals_12_and_13_leave_the_table_filled() {
    for k in [2, u32::MAX] {
        let (mut table, mut room) = ([KEPT; 27], [KEPT; 23]);
        let answer = reading_bytes(&chain(), &SEVENS, k, &mut table, &mut room);
        assert_eq!((answer, room), (read(12), [KEPT; 23]));
        assert_eq!(table[..], and_kept(&OF_SEVENS, 3));
    }
    // Cell (0, 21) is number 210, and 231 are all.
    let (mut table, mut room) = ([KEPT; 927], [KEPT; 164]);
    let events = SEVENS[..2].repeat(21);
    let answer = reading_bytes(&chain(), &events, u32::MAX, &mut table, &mut room);
    assert_eq!((answer, room), (read(13), [KEPT; 164]));
    assert_eq!(table[840..844], [0xFF; 4]);
    assert_eq!(table[920..], [1, 0, 0, 0, KEPT, KEPT, KEPT]);
}

/// No byte is needed, and none is written.
#[test]
fn no_events() {
    for (image, readings) in [(chain(), 0), (version_2(&chain(), 1), 1)] {
        for len in [0, 9] {
            let (mut chart, mut table, mut room) =
                (vec![KEPT; len], vec![KEPT; len], vec![KEPT; len]);
            let answer = judge_bytes(&image, &[], &mut chart);
            assert_eq!(answer, judged(readings == 1, 0, 0));
            assert_eq!(count_bytes(&image, &[], &mut table), counted(readings));
            let number = [12, 0][readings as usize];
            let answer = reading_bytes(&image, &[], 0, &mut table, &mut room);
            assert_eq!(answer, read(number));
            assert_eq!([chart, table, room], [0; 3].map(|_| vec![KEPT; len]));
        }
    }
}
