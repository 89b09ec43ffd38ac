//! Each refusal, and what it leaves in the lent memory.

mod refused;

use refused::{every_service_refuses, image_is_refused};
use second::examples::{chain, faulty, image, in_every_way, largest, stop, version_2};
use second::services::{check, count, judge, number, reading, test};
use second::services::{Checked, Counted, Judged, Numbered, Read, Tested};

/// STOP with one byte changed.
fn spoiled(place: usize, byte: u8) -> Vec<u8> {
    let mut image = stop();
    image[place] = byte;
    image
}

/// STOP with some bytes copied over others.
fn copied(from: std::ops::Range<usize>, to: usize) -> Vec<u8> {
    let mut image = stop();
    image.copy_within(from, to);
    image
}

/// Images at fault in what their number names, and in later things too where that can be; between
/// them the rule at fault.
fn refused_images() -> Vec<(u8, u16, Vec<u8>)> {
    vec![
        (1, 0, vec![]),
        (1, 0, stop()[..9].to_vec()),
        (2, 0, spoiled(0, b'e')),
        (2, 0, b"EGS\x02\x00\x00\x00\x00\x00\x00".to_vec()),
        (3, 0, spoiled(3, 0)),
        (3, 0, spoiled(4, 1)),
        (3, 0, b"ESG\x00\x01\x00\x00\x00\x00\x00".to_vec()),
        (4, 0, spoiled(5, 0)),
        (4, 0, spoiled(5, 65)),
        (4, 0, b"ESG\x01\x00\x01\x01\x02\x00\x00".to_vec()),
        (4, 0, b"ESG\x01\x00\x01\x00\x00\x01\x01".to_vec()),
        (5, 0, spoiled(6, 2)),
        (5, 0, spoiled(8, 5)),
        (5, 0, stop()[..30].to_vec()),
        (5, 0, [stop(), vec![0]].concat()),
        (5, 0, [spoiled(13, 6), vec![0]].concat()),
        (5, 0, [copied(10..13, 13), vec![0]].concat()),
        (6, 0, spoiled(10, 6)),
        (6, 1, spoiled(13, 6)),
        (6, 2, spoiled(16, 64)),
        (6, 3, spoiled(19, 255)),
        (6, 3, spoiled(20, 6)),
        (6, 5, spoiled(27, 6)),
        (6, 6, spoiled(30, 6)),
        (7, 1, copied(10..13, 13)),
        (7, 4, copied(19..22, 22)),
        (7, 1, copied(10..16, 13)),
        (7, 1, spoiled(10, 5)),
        (7, 2, spoiled(16, 1)),
        (7, 6, spoiled(28, 0)),
    ]
}

#[test]
fn refusals_of_an_image() {
    for (number, rule, image) in refused_images() {
        image_is_refused((number, rule), &image);
        if number >= 4 {
            image_is_refused((number, rule), &version_2(&image, 0));
            image_is_refused((number, rule), &version_2(&image, 1));
        }
    }
}

/// A refusal with its rule, the rules with an unknown symbol, and the rules repeated. An unknown
/// symbol puts the rule after it out of order, too.
type AtFault = ((u8, u16), &'static [usize], &'static [usize]);

/// Of 512 event rules and 256 pair rules.
const RULES_AT_FAULT: [AtFault; 22] = [
    ((6, 0), &[0], &[]),
    ((6, 0), &[767, 0], &[]),
    ((6, 255), &[255, 256], &[]),
    ((6, 256), &[256], &[]),
    ((6, 511), &[511], &[]),
    ((6, 511), &[511, 512], &[]),
    ((6, 512), &[512], &[]),
    ((6, 512), &[512, 767], &[]),
    ((6, 767), &[767], &[]),
    ((6, 767), &[767], &[1]),
    ((6, 600), &[600], &[100, 650]),
    ((6, 400), &[400, 700], &[399, 513]),
    ((7, 1), &[], &[1]),
    ((7, 1), &[], &[1, 767]),
    ((7, 255), &[], &[255]),
    ((7, 256), &[], &[256, 257]),
    ((7, 511), &[], &[511]),
    ((7, 511), &[], &[511, 513]),
    ((7, 513), &[], &[513]),
    ((7, 513), &[], &[513, 514, 767]),
    ((7, 767), &[], &[767]),
    ((7, 300), &[], &[300, 301, 700]),
];

#[test]
fn first_rule_at_fault() {
    for image in in_every_way(&largest()) {
        for (told, unknown, repeated) in RULES_AT_FAULT {
            image_is_refused(told, &faulty(image.clone(), unknown, repeated));
        }
    }
}

/// Numbering is over all rules, and so pair rules start at 0 where there are no event rules.
#[test]
fn rules_of_one_kind() {
    let pair_rules = image(2, &[], &[(0, 0, 1), (0, 1, 0), (1, 1, 1)]);
    let event_rules = image(2, &[(0, 5), (0, 6), (1, 5)], &[]);
    for image in [pair_rules, event_rules]
        .iter()
        .flat_map(|i| in_every_way(i))
    {
        image_is_refused((6, 0), &faulty(image.clone(), &[0, 2], &[]));
        image_is_refused((6, 2), &faulty(image.clone(), &[2], &[1]));
        image_is_refused((7, 1), &faulty(image.clone(), &[], &[1, 2]));
        image_is_refused((7, 2), &faulty(image, &[], &[2]));
    }
}

#[test]
fn refusal_8() {
    every_service_refuses((8, 0), &stop(), &[1; 97], 0);
    every_service_refuses((8, 0), &stop(), &[1; 97], 30_000);
    every_service_refuses((8, 0), &stop(), &[1; 1_000], 30_000);
}

#[test]
fn largest_and_smallest_images_are_accepted() {
    let told = |symbols, event_rules, pair_rules| Tested {
        number: 0,
        rule: 0,
        symbols,
        event_rules,
        pair_rules,
    };
    assert_eq!(test(&largest()), told(64, 512, 256));
    assert_eq!(test(&image(1, &[(0, 7)], &[])), told(1, 1, 0));
    assert_eq!(test(&stop()), told(6, 3, 4));
}

/// The event is a number, not two bytes in the order they stand: 256 is above 255.
#[test]
fn order_of_event_rules() {
    let rising = b"ESG\x01\x00\x01\x02\x00\x00\x00\x00\xFF\x00\x00\x00\x01".to_vec();
    assert_eq!(test(&rising).number, 0);
    let mut falling = rising;
    falling[10..].rotate_left(3);
    image_is_refused((7, 1), &falling);
}

/// No image at fault, and so no rule.
fn read(number: u8) -> Read {
    Read { number, rule: 0 }
}

/// Of the first reading or of none.
fn numbered(number: u8) -> Numbered {
    Numbered {
        number,
        ..Numbered::default()
    }
}

#[test]
fn refusals_9_and_10() {
    let mut chart = [9; 5];
    let told = Judged {
        number: 9,
        ..Judged::default()
    };
    assert_eq!(judge(&stop(), &[1, 2, 3], &mut chart), told);
    let mut table = [8; 35];
    let told = Counted {
        number: 10,
        ..Counted::default()
    };
    assert_eq!(count(&stop(), &[1, 2, 3], &mut table), told);
    let mut script = [7; 10];
    let refused = reading(&stop(), &[1, 2, 3], 0, &mut table, &mut script);
    assert_eq!(refused, read(10));
    let first = [4, 1, 0, 1, 6, 2, 1, 2, 2, 3];
    for script in [&first[..], &first[1..], &[], &[7; 10]] {
        let refused = number(&stop(), &[1, 2, 3], script, &mut table);
        assert_eq!(refused, numbered(10));
    }
    assert_eq!((chart, table, script), ([9; 5], [8; 35], [7; 10]));
}

#[test]
fn refusal_11_comes_before_12() {
    let (mut table, mut script) = ([8; 36], [7; 9]);
    let refused = reading(&stop(), &[1, 2, 3], 1, &mut table, &mut script);
    assert_eq!((refused, table, script), (read(11), [8; 36], [7; 9]));
}

/// One word short, and just enough.
#[test]
fn rooms_of_the_longest_record() {
    let (chain, events) = (chain(), [7; 96]);
    let (mut chart, mut table, mut script) = ([9; 4_656], [8; 4_656], [7; 382]);
    assert_eq!(judge(&chain, &events, &mut chart[1..]).number, 9);
    assert_eq!(count(&chain, &events, &mut table[1..]).number, 10);
    let first = |table: &mut [u32], script: &mut [u16]| reading(&chain, &events, 0, table, script);
    assert_eq!(first(&mut table[1..], &mut script), read(10));
    assert_eq!(first(&mut table, &mut script[1..]), read(11));
    let number_of = |script: &[u16], table: &mut [u32]| number(&chain, &events, script, table);
    assert_eq!(number_of(&script, &mut table[1..]), numbered(10));
    assert_eq!((chart, table, script), ([9; 4_656], [8; 4_656], [7; 382]));
    assert_eq!(judge(&chain, &events, &mut chart).number, 0);
    assert_eq!(count(&chain, &events, &mut table).number, 0);
    assert_eq!(first(&mut table, &mut script), read(0));
    assert_eq!(number_of(&script, &mut table), numbered(0));
    assert_eq!(number_of(&script[1..], &mut table), numbered(12));
}

#[test]
fn refusals_12_and_13_leave_the_table_filled() {
    let (mut table, mut script) = ([8; 7], [7; 12]);
    for k in [2, 4_294_967_295] {
        let refused = reading(&chain(), &[7; 3], k, &mut table, &mut script);
        assert_eq!(refused, read(12));
        assert_eq!((table, script), ([1, 1, 1, 2, 1, 1, 8], [7; 12]));
    }
    let (mut table, mut script) = ([8; 232], [7; 84]);
    let k = 4_294_967_295;
    let refused = reading(&chain(), &[7; 21], k, &mut table, &mut script);
    assert_eq!(refused, read(13));
    assert_eq!((table[210], table[231], script), (u32::MAX, 8, [7; 84]));
}

#[test]
fn an_empty_record_has_no_reading_without_the_flag() {
    for image in [chain(), version_2(&chain(), 0)] {
        for k in [0, 1, 4_294_967_295] {
            assert_eq!(reading(&image, &[], k, &mut [], &mut []), read(12));
        }
        for script in [&[][..], &[0, 1]] {
            assert_eq!(number(&image, &[], script, &mut []), numbered(12));
        }
        assert_eq!(judge(&image, &[], &mut []), Judged::default());
        assert_eq!(count(&image, &[], &mut []), Counted::default());
        assert_eq!(check(&image, &[], &[]), Checked::default());
        assert_eq!(check(&image, &[], &[0, 1]), Checked::default());
    }
}

#[test]
fn words_past_the_need_are_kept() {
    let mut chart = [9; 8];
    judge(&stop(), &[1, 2, 3], &mut chart);
    assert_eq!(chart[6..], [9, 9]);
    let (mut table, mut script) = ([8; 8], [7; 12]);
    count(&chain(), &[7; 3], &mut table);
    assert_eq!(table, [1, 1, 1, 2, 1, 1, 8, 8]);
    let mut table = [8; 8];
    let second = reading(&chain(), &[7; 3], 1, &mut table, &mut script);
    assert_eq!(second, read(0));
    assert_eq!(table, [1, 1, 1, 2, 1, 1, 8, 8]);
    assert_eq!(script, [1, 2, 1, 1, 0, 1, 0, 2, 0, 3, 7, 7]);
}
