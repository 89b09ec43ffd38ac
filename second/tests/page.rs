//! Pages of readings, beside all readings written down and sorted, and beside single calls.

mod small;

use second::derive::cells;
use second::examples::{binary, chain, digits, image_of, largest, misspelt, stop, version_2, wide};
use second::image::decode;
use second::random::Random;
use second::readings::{listed, Readings};
use second::services::{count, page, reading, Paged, Read};
use second::trees::script_words;
use small::small;

/// The last number that is told.
const LAST: u32 = 4_294_967_294;

/// Words that no script has, and no two near each other are equal.
fn unwritten(words: usize) -> Vec<u16> {
    (0..words)
        .map(|word| 50_000 + (word % 9_973) as u16)
        .collect()
}

/// The words of a table that was lent, likewise.
fn lent_table(words: usize) -> Vec<u32> {
    let words = 1..=words as u32;
    words.map(|word| word.wrapping_mul(1_000_003)).collect()
}

fn table_words(image: &[u8], events: &[u16]) -> usize {
    usize::from(image[5]) * cells(events.len())
}

fn answer(number: u8, written: usize) -> Paged {
    Paged {
        number,
        rule: 0,
        written: written as u32,
    }
}

/// The answer and the words written, if the table is left as a count leaves it and the rest of the
/// room as it was. The room has three words more than it must have.
fn paged(image: &[u8], events: &[u16], k: u32, m: u32) -> (Paged, Vec<u16>) {
    let need = table_words(image, events) + 2;
    let (mut table, mut counted) = (lent_table(need), lent_table(need));
    let lent = unwritten(m as usize * script_words(events.len()) + 3);
    let mut room = lent.clone();
    let answer = page(image, events, k, m, &mut table, &mut room);
    assert_eq!(count(image, events, &mut counted).number, 0);
    assert_eq!(table, counted);
    let words = answer.written as usize * script_words(events.len());
    assert_eq!(room[words..], lent[words..]);
    room.truncate(words);
    (answer, room)
}

/// The same, beside the list of all scripts.
fn page_of_all(image: &[u8], events: &[u16], all: &[Vec<u16>], k: u32, m: u32) {
    let (first, asked) = (k as usize, m as usize);
    let told = match all.len() {
        total if first >= total => (answer(12, 0), vec![]),
        total => {
            let scripts = &all[first..total.min(first + asked)];
            (answer(0, scripts.len()), scripts.concat())
        }
    };
    assert_eq!(paged(image, events, k, m), told, "k = {k}, m = {m}");
}

/// The same as single calls for each script, one after the other.
fn page_of_singles(image: &[u8], events: &[u16], k: u32, m: u32) {
    let words = script_words(events.len());
    let mut singles = Vec::new();
    for k in (k..=u32::MAX).take(m as usize) {
        let mut table = lent_table(table_words(image, events));
        let mut script = unwritten(words);
        let Read { number, .. } = reading(image, events, k, &mut table, &mut script);
        match number {
            0 => singles.push(script),
            _ => {
                assert!([12, 13].contains(&number));
                break;
            }
        }
    }
    let told = (answer(0, singles.len()), singles.concat());
    assert_eq!(paged(image, events, k, m), told, "k = {k}, m = {m}");
}

/// An image, a record, and all its scripts.
type Row = (Vec<u8>, Vec<u16>, Vec<Vec<u16>>);

/// Worked out by hand.
fn rows() -> Vec<Row> {
    vec![
        (chain(), vec![7], vec![vec![0, 1]]),
        (chain(), vec![7; 2], vec![vec![1, 1, 0, 1, 0, 2]]),
        (
            chain(),
            vec![7; 3],
            vec![
                vec![1, 1, 0, 1, 1, 2, 0, 2, 0, 3],
                vec![1, 2, 1, 1, 0, 1, 0, 2, 0, 3],
            ],
        ),
        (
            chain(),
            vec![7; 4],
            vec![
                vec![1, 1, 0, 1, 1, 2, 0, 2, 1, 3, 0, 3, 0, 4],
                vec![1, 1, 0, 1, 1, 3, 1, 2, 0, 2, 0, 3, 0, 4],
                vec![1, 2, 1, 1, 0, 1, 0, 2, 1, 3, 0, 3, 0, 4],
                vec![1, 3, 1, 1, 0, 1, 1, 2, 0, 2, 0, 3, 0, 4],
                vec![1, 3, 1, 2, 1, 1, 0, 1, 0, 2, 0, 3, 0, 4],
            ],
        ),
        (chain(), vec![7, 8], vec![]),
        (
            stop(),
            vec![1, 2, 3],
            vec![vec![4, 1, 0, 1, 6, 2, 1, 2, 2, 3]],
        ),
        (stop(), vec![1, 2], vec![]),
    ]
}

#[test]
fn every_page_of_the_rows() {
    for (image, events, all) in rows() {
        for k in (0..=7).chain([LAST, u32::MAX]) {
            for m in 0..=8 {
                page_of_all(&image, &events, &all, k, m);
            }
        }
    }
}

#[test]
fn pages_of_small_records() {
    let mut random = Random::new(11);
    let (mut whole, mut ended) = (0, 0);
    for _ in 0..300 {
        let (grammar, events) = small(&mut random);
        let (image, all) = (image_of(&grammar), listed(&grammar, &events));
        let total = all.len();
        for k in [0, random.below(total + 1), total.saturating_sub(2), total] {
            let left = total - k;
            for m in [0, 1, random.below(9), left.min(20), (left + 1).min(20)] {
                page_of_all(&image, &events, &all, k as u32, m as u32);
                whole += usize::from(m > 1 && m <= left);
                ended += usize::from(left > 0 && m > left);
            }
        }
    }
    assert!(whole > 400 && ended > 100, "{whole} and {ended}");
}

/// So many that the service doesn't write them all down, and all of them in one page.
#[test]
fn thousands() {
    let (image, events) = (wide(3), [7; 7]);
    let all = listed(&decode(&image).expect("an accepted image"), &events);
    assert_eq!(all.len(), 9_912);
    for (k, m) in [(0, 9_912), (0, 9_913), (5_000, 3_000), (9_911, 2)] {
        page_of_all(&image, &events, &all, k, m);
    }
}

/// Where numbers are few, and around the last of many.
#[test]
fn single_calls() {
    for (image, events, k) in [
        (chain(), vec![7; 8], 0),
        (chain(), vec![7; 8], 425),
        (stop(), vec![1, 2, 3, 1, 2, 3], 0),
        (wide(3), vec![7; 16], LAST - 5),
        (wide(64), vec![7; 5], 1_000_000),
        (chain(), vec![7; 96], 0),
        (chain(), vec![7; 96], LAST - 5),
        (binary(), digits(4_294_967_293), LAST - 5),
        (binary(), digits(4_294_967_294), LAST - 5),
        (binary(), digits(4_294_967_295), LAST - 5),
        (binary(), digits(4_294_967_296), LAST - 5),
        (binary(), digits(u64::MAX), LAST - 5),
    ] {
        for m in 0..=9 {
            page_of_singles(&image, &events, k, m);
        }
    }
    let events: Vec<_> = (0..20).map(|place| place % 8).collect();
    page_of_singles(&largest(), &events, LAST - 1, 3);
}

/// The numbers end at the true count.
#[test]
fn twenty_7s() {
    let (image, events) = (chain(), [7; 20]);
    let last = 1_767_263_189;
    for (k, m, written) in [
        (last - 2, 2, 2),
        (last - 2, 3, 3),
        (last - 2, 4, 3),
        (last, 1, 1),
        (last, 2, 1),
        (last, 500, 1),
        (last, 0, 0),
    ] {
        assert_eq!(paged(&image, &events, k, m).0, answer(0, written));
        page_of_singles(&image, &events, k, m);
    }
    for k in [last + 1, last + 2, LAST, u32::MAX] {
        for m in [0, 1, 2, 500] {
            assert_eq!(paged(&image, &events, k, m), (answer(12, 0), vec![]));
        }
    }
}

/// The numbers end though there are more readings: the next sum has more than 32 bits.
#[test]
fn twenty_one_7s() {
    let (image, events) = (chain(), [7; 21]);
    for (k, m, written) in [
        (LAST - 1, 0, 0),
        (LAST - 1, 1, 1),
        (LAST - 1, 2, 2),
        (LAST - 1, 5, 2),
        (LAST, 0, 0),
        (LAST, 1, 1),
        (LAST, 2, 1),
        (LAST, 3, 1),
        (LAST, 500, 1),
    ] {
        assert_eq!(paged(&image, &events, k, m).0, answer(0, written));
        page_of_singles(&image, &events, k, m);
    }
    for m in [0, 1, 2, 500] {
        let refused = paged(&image, &events, u32::MAX, m);
        assert_eq!(refused, (answer(13, 0), vec![]));
    }
}

/// 12 or 13, by the true count.
#[test]
fn past_the_last_number() {
    for (total, number) in [
        (LAST.into(), 12),
        (u64::from(LAST) + 1, 13),
        (u64::from(LAST) + 2, 13),
        (u64::MAX, 13),
    ] {
        for m in [0, 1, 7] {
            let (told, _) = paged(&binary(), &digits(total), u32::MAX, m);
            assert_eq!(told, answer(number, 0));
        }
    }
}

/// More words than 16 bits count.
#[test]
fn long_page() {
    let (image, events, k, m) = (chain(), [7; 20], 1_000_000, 900);
    let grammar = decode(&image).expect("an accepted image");
    let readings = Readings::of(&grammar, &events);
    let scripts = (k..k + m).map(|number| readings.script(number.into()));
    let words = scripts.collect::<Vec<_>>().concat();
    assert_eq!(words.len(), 70_200);
    assert_eq!(paged(&image, &events, k, m), (answer(0, 900), words));
}

/// The answer, if nothing at all was written.
fn untouched(image: &[u8], events: &[u16], [k, m]: [u32; 2], table: usize, room: usize) -> Paged {
    let (mut lent, mut words) = (lent_table(table), unwritten(room));
    let answer = page(image, events, k, m, &mut lent, &mut words);
    assert_eq!((lent, words), (lent_table(table), unwritten(room)));
    answer
}

/// All that is asked for must fit, though less may be written.
#[test]
fn refusal_11() {
    let (image, events) = (chain(), [7; 3]);
    for m in [1, 2, 3, 5, 6_553, 6_554, 6_555, 13_108] {
        let need = 10 * m as usize;
        for (k, short) in [0, 1, 2, u32::MAX]
            .map(|k| [(k, 1), (k, 10), (k, need)])
            .concat()
        {
            let refused = untouched(&image, &events, [k, m], 6, need - short);
            assert_eq!(refused, answer(11, 0));
        }
        for (k, number, written) in [(0, 0, m.min(2)), (1, 0, 1), (2, 12, 0)] {
            let (mut table, mut room) = (lent_table(6), unwritten(need));
            let told = page(&image, &events, k, m, &mut table, &mut room);
            assert_eq!(told, answer(number, written as usize));
            assert_eq!(table, [1, 1, 1, 2, 1, 1]);
        }
    }
}

/// Also where the product is small in 32 bits.
#[test]
fn more_than_any_room() {
    for (image, events, k) in [
        (chain(), vec![7; 3], 0),
        (chain(), vec![7; 3], 2),
        (chain(), vec![7; 21], LAST),
        (chain(), vec![7; 21], u32::MAX),
        (chain(), vec![7; 96], 1),
        (stop(), vec![1, 2, 3], 0),
    ] {
        let (table, words) = (table_words(&image, &events), script_words(events.len()));
        let wraps = (1_u64 << 32).div_ceil(words as u64) as u32;
        for m in [u32::MAX, u32::MAX - 1, 1 << 31, wraps, wraps + 1] {
            for room in [0, words, 3 * words, 66_000] {
                let refused = untouched(&image, &events, [k, m], table, room);
                assert_eq!(refused, answer(11, 0));
            }
        }
    }
}

/// 15, 8, 10 and 11 in their order, before 12 and 13 and whatever m is.
#[test]
fn first_refusal() {
    let misspelt = misspelt();
    for m in [0, 1, 2, u32::MAX] {
        for k in [0, 5, u32::MAX] {
            let first = |image: &[u8], events: &[u16], table, room| {
                untouched(image, events, [k, m], table, room).number
            };
            assert_eq!(first(&misspelt, &[1; 97], 0, 0), 15);
            assert_eq!(first(&misspelt, &[1, 2, 3], 42, 20), 15);
            assert_eq!(first(&stop(), &[1; 97], 0, 0), 8);
            assert_eq!(first(&stop(), &[1; 97], 30_000, 800), 8);
            assert_eq!(first(&stop(), &[1, 2, 3], 35, 0), 10);
            assert_eq!(first(&stop(), &[1, 2, 3], 35, 20), 10);
            if m > 0 {
                assert_eq!(first(&stop(), &[1, 2, 3], 36, 9), 11);
            }
        }
    }
}

/// After all checks, and with any room.
#[test]
fn no_script() {
    for (k, number) in [(0, 0), (1, 0), (2, 12), (u32::MAX, 12)] {
        for room in [0, 1, 9, 10, 25] {
            let (mut table, mut words) = ([8; 7], unwritten(room));
            let told = page(&chain(), &[7; 3], k, 0, &mut table, &mut words);
            assert_eq!(told, answer(number, 0));
            assert_eq!((table, words), ([1, 1, 1, 2, 1, 1, 8], unwritten(room)));
        }
    }
}

/// No word is needed for the empty script, however often it is asked for.
#[test]
fn quiet_records() {
    for version_1 in [chain(), stop(), wide(64)] {
        for (image, readings) in [
            (version_1.clone(), 0),
            (version_2(&version_1, 0), 0),
            (version_2(&version_1, 1), 1),
        ] {
            for m in [0, 1, 2, 1 << 31, LAST, u32::MAX] {
                for (table, room) in [(0, 0), (3, 3)] {
                    let told = |k| untouched(&image, &[], [k, m], table, room);
                    let first = match readings {
                        0 => answer(12, 0),
                        _ => answer(0, m.min(1) as usize),
                    };
                    assert_eq!(told(0), first);
                    for k in [1, 2, LAST, u32::MAX] {
                        assert_eq!(told(k), answer(12, 0));
                    }
                }
            }
        }
    }
}
