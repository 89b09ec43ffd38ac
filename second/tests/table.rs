//! The rows of the specification's two grammars.

use second::examples::{chain, largest, stop};
use second::services::{check, count, judge, number, reading};
use second::services::{Checked, Counted, Judged, Numbered, Read};

/// Enough for any row.
const CHART: usize = 4_656;
const TABLE: usize = 4_656 * 6;
const SCRIPT: usize = 382;

/// Admitted, items, firings, and the readings if the row names them.
type Row = (
    &'static str,
    Vec<u8>,
    Vec<u16>,
    (bool, u64, u64),
    Option<u32>,
);

fn rows() -> Vec<Row> {
    vec![
        ("none", chain(), vec![], (false, 0, 0), Some(0)),
        ("7", chain(), vec![7], (true, 1, 1), Some(1)),
        ("7 7", chain(), vec![7; 2], (true, 3, 3), Some(1)),
        ("7 7 7", chain(), vec![7; 3], (true, 6, 7), Some(2)),
        ("four 7s", chain(), vec![7; 4], (true, 10, 14), Some(5)),
        ("7 8", chain(), vec![7, 8], (false, 1, 1), None),
        ("1 2 3", stop(), vec![1, 2, 3], (true, 6, 6), None),
        ("1 2", stop(), vec![1, 2], (false, 2, 2), None),
        (
            "1 2 3 1 2 3",
            stop(),
            vec![1, 2, 3, 1, 2, 3],
            (true, 13, 13),
            Some(1),
        ),
    ]
}

fn total(image: &[u8], events: &[u16]) -> Counted {
    count(image, events, &mut [0; TABLE])
}

fn script(image: &[u8], events: &[u16], k: u32) -> (u8, Vec<u16>) {
    let mut words = vec![0; SCRIPT];
    let Read { number, rule } = reading(image, events, k, &mut [0; TABLE], &mut words);
    assert_eq!(rule, 0, "no row has a rule at fault");
    words.truncate(if number == 0 { 4 * events.len() - 2 } else { 0 });
    (number, words)
}

#[test]
fn rows_marked_for_proof() {
    for (name, image, events, (admitted, items, firings), readings) in rows() {
        let told = Judged {
            number: 0,
            rule: 0,
            admitted,
            items,
            firings,
        };
        assert_eq!(judge(&image, &events, &mut [0; CHART]), told, "{name}");
        let counted = total(&image, &events);
        assert_eq!(counted.number, 0, "{name}");
        assert_eq!(counted.total > 0, admitted, "{name}");
        assert_eq!(
            counted.total,
            readings.unwrap_or(counted.total),
            "{name}: its readings"
        );
    }
}

#[test]
fn image_of_chain() {
    let bytes = [0x45, 0x53, 0x47, 1, 0, 1, 1, 0, 1, 0, 0, 7, 0, 0, 0, 0];
    assert_eq!(chain(), bytes);
}

#[test]
fn first_readings() {
    assert_eq!(script(&chain(), &[7], 0), (0, vec![0, 1]));
    let words = vec![4, 1, 0, 1, 6, 2, 1, 2, 2, 3];
    assert_eq!(script(&stop(), &[1, 2, 3], 0), (0, words.clone()));
    let yes = Checked {
        number: 0,
        rule: 0,
        yes: true,
    };
    assert_eq!(check(&stop(), &[1, 2, 3], &words), yes);
    assert_eq!(numbered(&stop(), &[1, 2, 3], &words), told_number(0, 0));
}

fn numbered(image: &[u8], events: &[u16], words: &[u16]) -> Numbered {
    number(image, events, words, &mut [0; TABLE])
}

fn told_number(number: u8, reading: u32) -> Numbered {
    Numbered {
        number,
        rule: 0,
        reading,
    }
}

/// The two lines of the program's output, and lines that it doesn't have.
#[test]
fn numbers_of_chain_7_7_7() {
    let number = |words: [u16; 10]| numbered(&chain(), &[7; 3], &words);
    assert_eq!(number([1, 1, 0, 1, 1, 2, 0, 2, 0, 3]), told_number(0, 0));
    assert_eq!(number([1, 2, 1, 1, 0, 1, 0, 2, 0, 3]), told_number(0, 1));
    assert_eq!(number([1, 2, 1, 1, 0, 1, 0, 2, 0, 2]), told_number(12, 0));
    assert_eq!(number([1, 1, 1, 1, 0, 1, 0, 2, 0, 3]), told_number(12, 0));
}

#[test]
fn two_findings_in_one_cell() {
    let mut chart = [0; 6];
    judge(&stop(), &[1, 2, 3], &mut chart);
    assert_eq!(chart, [1 << 2, 0, 1 << 4, 3, 1 << 3, 1 << 5]);
}

#[test]
fn many_readings() {
    let told = |total| Counted {
        number: 0,
        rule: 0,
        total,
    };
    assert_eq!(total(&chain(), &[7; 20]), told(1_767_263_190));
    assert_eq!(total(&chain(), &[7; 21]), told(4_294_967_295));
    let (number, words) = script(&chain(), &[7; 21], 4_294_967_294);
    assert_eq!(number, 0);
    assert!(check(&chain(), &[7; 21], &words).yes);
    let numbered = numbered(&chain(), &[7; 21], &words);
    assert_eq!(numbered, told_number(0, 4_294_967_294));
    assert_eq!(script(&chain(), &[7; 21], 4_294_967_295).0, 13);
    assert_eq!(script(&chain(), &[7; 3], 2).0, 12);
}

#[test]
fn most_events() {
    for n in [64, 65, 95, 96] {
        let events = vec![7; n];
        assert_eq!(judge(&chain(), &events, &mut [0; CHART]).number, 0);
        assert_eq!(total(&chain(), &events).number, 0);
        let (number, words) = script(&chain(), &events, 0);
        assert_eq!(number, 0);
        assert!(check(&chain(), &events, &words).yes);
        assert_eq!(numbered(&chain(), &events, &words), told_number(0, 0));
    }
    for n in [97, 98, 256 + 96, 65_536] {
        let events = vec![7; n];
        assert_eq!(judge(&chain(), &events, &mut [0; CHART]).number, 8);
        assert_eq!(total(&chain(), &events).number, 8);
        assert_eq!(script(&chain(), &events, 0).0, 8);
        assert_eq!(check(&chain(), &events, &[]).number, 8);
        assert_eq!(numbered(&chain(), &events, &[]), told_number(8, 0));
    }
}

/// As much of everything as there may be, and every symbol in every cell.
#[test]
fn largest_image_and_record() {
    let events: Vec<u16> = (0..96).map(|place| place % 8).collect();
    let mut chart = [0; 4_656];
    let told = Judged {
        number: 0,
        rule: 0,
        admitted: true,
        items: 4_656 * 64,
        firings: 37_750_784,
    };
    assert_eq!(judge(&largest(), &events, &mut chart), told);
    assert_eq!(chart, [u64::MAX; 4_656]);
}
