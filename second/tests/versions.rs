//! Version 2: its images, the empty record that a flag of 1 admits, and nothing else that changes.

mod refused;

use refused::image_is_refused;
use second::derive::cells;
use second::drawn::{any_image, live_image};
use second::examples::{chain, image, largest, stop, version_2};
use second::image::decode;
use second::random::Random;
use second::readings::{is_reading, listed};
use second::services::{check, count, judge, number, page, reading, test};
use second::services::{Checked, Counted, Judged, Numbered, Paged, Read, Tested};
use second::session::{add, begin};
use second::trees::script_words;

/// With one rule, with few, and with as many as there may be.
fn version_1_images() -> [Vec<u8>; 4] {
    [image(1, &[(0, 7)], &[]), chain(), stop(), largest()]
}

/// A header of ten bytes.
fn header(symbols: u8, event_rules: u16, pair_rules: u16) -> Vec<u8> {
    let numbers = [event_rules.to_le_bytes(), pair_rules.to_le_bytes()].concat();
    [&b"ESG\x02\x00"[..], &[symbols], &numbers].concat()
}

#[test]
fn image_of_chain() {
    let bytes = [0x45, 0x53, 0x47, 2, 0, 1, 1, 0, 1, 0, 1, 0, 7, 0, 0, 0, 0];
    assert_eq!(version_2(&chain(), 1), bytes);
    let told = Tested {
        number: 0,
        rule: 0,
        symbols: 1,
        event_rules: 1,
        pair_rules: 1,
    };
    assert_eq!(test(&bytes), told);
}

#[test]
fn every_flag() {
    for version_1 in version_1_images() {
        assert_eq!(test(&version_1).number, 0);
        for flag in 0..=255 {
            let image = version_2(&version_1, flag);
            if flag > 1 {
                image_is_refused((4, 0), &image);
                continue;
            }
            assert_eq!(test(&image), test(&version_1));
            let grammar = decode(&image).expect("an accepted image");
            assert_eq!(grammar.admits_empty, flag == 1);
        }
    }
}

#[test]
fn every_version() {
    let mut image = version_2(&chain(), 1);
    for version in 0..=u16::MAX {
        image[3..5].copy_from_slice(&version.to_le_bytes());
        let told = match version {
            // The flag is a byte too many there.
            1 => 5,
            2 => 0,
            _ => 3,
        };
        assert_eq!(test(&image).number, told, "version {version}");
    }
}

/// Also where all that comes after the version is at fault.
#[test]
fn other_versions_in_every_service() {
    for version in [0, 3, 256, 257, 258, 512, 513, 514, 65_535] {
        let faulty = [header(0, 513, 257), vec![2, 9]].concat();
        for mut image in [chain(), version_2(&chain(), 1), faulty] {
            image[3..5].copy_from_slice(&u16::to_le_bytes(version));
            image_is_refused((3, 0), &image);
        }
    }
}

#[test]
fn ten_bytes() {
    for symbols in [0, 1, 2, 63, 64, 65, 255] {
        for event_rules in [0, 1, 256, 512, 513, 65_535] {
            for pair_rules in [0, 1, 255, 256, 257, 65_535] {
                let image = header(symbols, event_rules, pair_rules);
                let symbols_fit = (1..=64).contains(&symbols);
                let in_range = symbols_fit && event_rules <= 512 && pair_rules <= 256;
                image_is_refused((if in_range { 5 } else { 4 }, 0), &image);
            }
        }
    }
    image_is_refused((1, 0), &header(1, 0, 0)[..9]);
}

#[test]
fn eleven_bytes() {
    let eleven = |symbols, event_rules, pair_rules, flag| {
        [header(symbols, event_rules, pair_rules), vec![flag]].concat()
    };
    for flag in [0, 1] {
        for symbols in [1, 64] {
            image_is_refused((15, 0), &eleven(symbols, 0, 0, flag));
        }
        for (event_rules, pair_rules) in [(1, 0), (0, 1), (512, 256)] {
            image_is_refused((5, 0), &eleven(1, event_rules, pair_rules, flag));
        }
        for (symbols, event_rules, pair_rules) in [(0, 0, 0), (65, 0, 0), (1, 513, 0), (1, 0, 257)]
        {
            image_is_refused((4, 0), &eleven(symbols, event_rules, pair_rules, flag));
        }
    }
    for flag in 2..=255 {
        image_is_refused((4, 0), &eleven(1, 0, 0, flag));
    }
}

/// A flag is refused before the length is, and that before the rules are.
#[test]
fn first_refusal() {
    for flag in [2, 3, 128, 255] {
        let image = version_2(&stop(), flag);
        image_is_refused((4, 0), &image[..11]);
        image_is_refused((4, 0), &image[..image.len() - 1]);
        image_is_refused((4, 0), &[image.clone(), vec![0]].concat());
        let unknown = [&image[..11], &[255], &image[12..]].concat();
        image_is_refused((4, 0), &unknown);
        image_is_refused((2, 0), &[&b"esg"[..], &image[3..]].concat());
    }
    let image = version_2(&stop(), 1);
    let unknown = [&image[..11], &[255], &image[12..]].concat();
    image_is_refused((6, 0), &unknown);
    image_is_refused((5, 0), &[unknown, vec![0]].concat());
}

/// Neither version's length will do for the other, whatever the bytes.
#[test]
fn lengths() {
    for version_1 in version_1_images() {
        for flag in [0, 1] {
            let image = version_2(&version_1, flag);
            assert_eq!(image.len(), version_1.len() + 1);
            image_is_refused((5, 0), &image[..image.len() - 1]);
            image_is_refused((5, 0), &[image.clone(), vec![0]].concat());
            let as_version_1 = [&image[..3], &[1], &image[4..]].concat();
            image_is_refused((5, 0), &as_version_1);
        }
    }
    let largest = version_2(&largest(), 1);
    assert_eq!((largest.len(), test(&largest).number), (2_315, 0));
}

#[test]
fn quiet_record() {
    for version_1 in version_1_images() {
        let image = version_2(&version_1, 1);
        quiet_in_every_service(&image, 0);
        quiet_in_every_service(&image, 3);
    }
}

/// One reading, the empty script, and no word written, whatever the room.
fn quiet_in_every_service(image: &[u8], room: usize) {
    let (mut chart, mut table, mut script) = (vec![9; room], vec![8; room], vec![7; room]);
    let judged = Judged {
        admitted: true,
        ..Judged::default()
    };
    let counted = Counted {
        total: 1,
        ..Counted::default()
    };
    assert_eq!(judge(image, &[], &mut chart), judged);
    assert_eq!(count(image, &[], &mut table), counted);
    for (k, number) in [(0, 0), (1, 12), (2, 12), (u32::MAX - 1, 12), (u32::MAX, 12)] {
        let read = Read { number, rule: 0 };
        assert_eq!(reading(image, &[], k, &mut table, &mut script), read);
        for m in [0, 1, 2, u32::MAX] {
            let paged = Paged {
                number,
                rule: 0,
                written: u32::from(number == 0 && m > 0),
            };
            assert_eq!(page(image, &[], k, m, &mut table, &mut script), paged);
        }
    }
    let yes = Checked {
        yes: true,
        ..Checked::default()
    };
    assert_eq!(check(image, &[], &[]), yes);
    let first = Numbered::default();
    assert_eq!(number(image, &[], &[], &mut table), first);
    let none = Numbered {
        number: 12,
        ..Numbered::default()
    };
    for words in [&[0][..], &[1], &[0, 0], &[0, 1], &[0, 1, 0, 1], &[0; 6]] {
        assert_eq!(check(image, &[], words), Checked::default());
        assert_eq!(number(image, &[], words, &mut table), none);
    }
    let untouched = (vec![9; room], vec![8; room], vec![7; room]);
    assert_eq!((chart, table, script), untouched);
}

/// The empty script is no reading of them, and no symbol derives an empty stretch of them.
#[test]
fn records_with_events_under_flag_1() {
    let image = version_2(&chain(), 1);
    let (mut table, mut script) = ([8; 2], [7; 3]);
    let judged = |admitted, items, firings| Judged {
        admitted,
        items,
        firings,
        ..Judged::default()
    };
    let mut chart = [9; 2];
    assert_eq!(judge(&image, &[7], &mut chart), judged(true, 1, 1));
    assert_eq!((chart, count(&image, &[7], &mut table).total), ([1, 9], 1));
    assert_eq!(judge(&image, &[8], &mut chart), judged(false, 0, 0));
    assert_eq!(count(&image, &[8], &mut table).total, 0);
    let mut read = |k| reading(&image, &[7], k, &mut table, &mut script).number;
    assert_eq!((read(1), read(0)), (12, 0));
    assert_eq!((table, script), ([1, 8], [0, 1, 7]));
    let mut told = |events: &[u16], script: &[u16]| {
        let numbered = number(&image, events, script, &mut table).number;
        (check(&image, events, script).yes, numbered)
    };
    assert_eq!(told(&[7], &[0, 1]), (true, 0));
    assert_eq!(told(&[7], &[]), (false, 12));
    assert_eq!(told(&[8], &[]), (false, 12));
}

#[test]
fn list_and_membership_of_an_empty_record() {
    for (flag, scripts) in [(0, vec![]), (1, vec![vec![]])] {
        let grammar = decode(&version_2(&stop(), flag)).expect("an accepted image");
        assert_eq!(listed(&grammar, &[]), scripts);
        for words in [vec![], vec![0], vec![0, 1]] {
            assert_eq!(is_reading(&grammar, &[], &words), scripts.contains(&words));
        }
    }
}

/// All that the services over a record say and write.
fn everything(image: &[u8], events: &[u16]) -> String {
    let n = events.len();
    let room = image[5] as usize * cells(n) + 1;
    let (mut chart, mut table) = (vec![9; cells(n) + 1], vec![8; room]);
    let judged = judge(image, events, &mut chart);
    let counted = count(image, events, &mut table);
    let mut told = format!("{judged:?} {chart:?} {counted:?} {table:?}");
    for k in [0, 1, 2, counted.total.saturating_sub(1), u32::MAX] {
        let (mut table, mut script) = (vec![8; room], vec![7; script_words(n) + 1]);
        let read = reading(image, events, k, &mut table, &mut script);
        told += &format!(" {read:?} {table:?} {script:?}");
        let (mut table, mut scripts) = (vec![8; room], vec![7; 2 * script_words(n) + 1]);
        let paged = page(image, events, k, 2, &mut table, &mut scripts);
        told += &format!(" {paged:?} {table:?} {scripts:?}");
        for words in [&script[..script_words(n)], &script] {
            let mut table = vec![8; room];
            let checked = check(image, events, words);
            let numbered = number(image, events, words, &mut table);
            told += &format!(" {checked:?} {numbered:?} {table:?}");
        }
    }
    let mut session = begin();
    for &event in events {
        let added;
        (session, added) = add(image, session, event);
        told += &format!(" {session:?} {added:?}");
    }
    told
}

/// The flag makes a difference to an empty record alone, and to that one it does unless a symbol is
/// dead.
#[test]
fn twins() {
    let mut random = Random::new(4);
    let (mut admitted, mut dead) = (0, 0);
    for _ in 0..500 {
        let symbols = random.within(1, 3);
        let (event_rules, pair_rules) = (random.below(6), random.below(9));
        let draw = random.one_of(&[any_image, live_image]);
        let version_1 = draw(&mut random, symbols, &[0, 1], event_rules, pair_rules);
        let n = random.below(7);
        let events: Vec<_> = (0..n).map(|_| random.below(2) as u16).collect();
        let told = everything(&version_1, &events);
        assert_eq!(everything(&version_2(&version_1, 0), &events), told);
        let flag_1 = everything(&version_2(&version_1, 1), &events);
        let refused = test(&version_1).number == 15;
        assert_eq!(flag_1 == told, n > 0 || refused);
        admitted += usize::from(told.contains("admitted: true"));
        dead += usize::from(refused);
    }
    assert!(admitted > 50 && dead > 50, "{admitted} and {dead}");
}
