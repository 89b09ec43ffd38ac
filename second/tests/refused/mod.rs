//! A refusal as every service gives it.

use second::bytes::{count_bytes, judge_bytes, reading_bytes};
use second::services::{check, count, judge, number, page, reading, test};
use second::services::{Checked, Counted, Judged, Numbered, Paged, Read, Tested};
use second::session::{add, Added, Session, CHART_WORDS};

/// Whether or not record, rooms and session are at fault too.
pub fn image_is_refused(told: (u8, u16), image: &[u8]) {
    let tested = Tested {
        number: told.0,
        rule: told.1,
        ..Tested::default()
    };
    assert_eq!(test(image), tested, "{image:?}");
    every_service_refuses(told, image, &[1], 64);
    every_service_refuses(told, image, &[1; 97], 0);
    nothing_is_added(told, image);
}

/// To sessions of few events, of the most and of more.
fn nothing_is_added((number, rule): (u8, u16), image: &[u8]) {
    let refused = Added {
        number,
        rule,
        ..Added::default()
    };
    for count in [0, 1, 31, 32, 33, u64::MAX] {
        let chart = [9; CHART_WORDS];
        let session = Session { chart, count };
        assert_eq!(add(image, session, 1), (session, refused));
    }
}

/// Refused with this number and rule, zeros elsewhere and nothing written, whatever the room; on bytes
/// also without the last byte of the events.
pub fn every_service_refuses(told: (u8, u16), image: &[u8], events: &[u16], room: usize) {
    let (refusal, rule) = told;
    let (mut chart, mut table, mut script) = (vec![9; room], vec![8; room], vec![7; room]);
    let judged = Judged {
        number: refusal,
        rule,
        ..Judged::default()
    };
    let counted = Counted {
        number: refusal,
        rule,
        total: 0,
    };
    let checked = Checked {
        number: refusal,
        rule,
        yes: false,
    };
    let numbered = Numbered {
        number: refusal,
        rule,
        reading: 0,
    };
    let read = Read {
        number: refusal,
        rule,
    };
    let paged = Paged {
        number: refusal,
        rule,
        written: 0,
    };
    assert_eq!(judge(image, events, &mut chart), judged);
    assert_eq!(count(image, events, &mut table), counted);
    assert_eq!(reading(image, events, 0, &mut table, &mut script), read);
    for m in [0, 1, u32::MAX] {
        let refused = page(image, events, 0, m, &mut table, &mut script);
        assert_eq!(refused, paged);
    }
    for script in [&[][..], &[4, 1], &[0; 1_000]] {
        assert_eq!(check(image, events, script), checked);
        assert_eq!(number(image, events, script, &mut table), numbered);
    }
    assert_eq!(
        (chart, table, script),
        (vec![9; room], vec![8; room], vec![7; room])
    );
    let bytes: Vec<u8> = events
        .iter()
        .flat_map(|event| event.to_le_bytes())
        .collect();
    bytes_are_refused(told, image, &bytes, room);
    bytes_are_refused(told, image, &bytes[..bytes.len().saturating_sub(1)], room);
}

/// The same on bytes.
fn bytes_are_refused((number, rule): (u8, u16), image: &[u8], events: &[u8], room: usize) {
    let (mut chart, mut table, mut script) = (vec![9; room], vec![8; room], vec![7; room]);
    let judged = Judged {
        number,
        rule,
        ..Judged::default()
    };
    let counted = Counted {
        number,
        rule,
        total: 0,
    };
    let read = Read { number, rule };
    assert_eq!(judge_bytes(image, events, &mut chart), judged);
    assert_eq!(count_bytes(image, events, &mut table), counted);
    let refused = reading_bytes(image, events, 0, &mut table, &mut script);
    assert_eq!(refused, read);
    assert_eq!(
        (chart, table, script),
        (vec![9; room], vec![8; room], vec![7; room])
    );
}
