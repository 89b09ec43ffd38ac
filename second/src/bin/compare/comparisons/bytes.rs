//! The services on bytes, with the image and the record of a case: both sides, and the proved side
//! beside itself on the words that the bytes show.

use crate::calls::call::Call;
use crate::calls::called::Called;
use crate::calls::lent::{Lent, Word};
use crate::calls::proved_side::PROVED;
use crate::calls::setting::Setting;
use crate::comparisons::agreement::agree;
use crate::comparisons::twins::compare_with_twin;
use crate::draw::bytes::event_bytes;
use crate::notes::answers::note;
use crate::notes::bytes::in_words;
use crate::notes::tally::Tally;
use crate::plan::bytes::ByteCase;
use crate::plan::case::Case;
use second::bytes::words;
use second::random::Random;

/// Every call that is planned.
pub fn compare(
    random: &mut Random,
    tally: &mut Tally,
    image: &[u8],
    events: &[u16],
) -> Result<(), String> {
    let bytes = &event_bytes(random, events);
    let shown = words(bytes, u16::from_le_bytes);
    let case = Case::new(random, tally, image, &shown);
    for step in (ByteCase { case, bytes }).steps() {
        let second = compare_with_twin(random, tally, &step.setting)?;
        compare_in_words(random, tally, &step.setting, &second)?;
        note(tally, &step, &second);
    }
    Ok(())
}

/// The proved side must end on words as it did on bytes; nothing where the events have a byte that
/// shows none.
fn compare_in_words(
    random: &mut Random,
    tally: &mut Tally,
    before: &Setting,
    after: &Called,
) -> Result<(), String> {
    if before.call.event_bytes().is_none_or(|bytes| bytes % 2 == 1) {
        return Ok(());
    }
    tally.add(in_words(before.service(), after.answer.number));
    let [lent, left] = both_in_words(random, [&before.call, &after.setting.call]);
    let lent = before.with_call(lent);
    let told = Called {
        answer: after.answer,
        setting: before.with_call(left),
    };
    let proved = Called::by(&PROVED, &lent);
    agree(&lent, [("words'", &proved), ("bytes'", &told)])
}

/// A call on bytes before and after, each as the call on the words that the bytes show.
fn both_in_words(random: &mut Random, both: [&Call; 2]) -> [Call; 2] {
    match both {
        [Call::JudgeBytes { chart, .. }, Call::JudgeBytes { chart: left, .. }] => {
            both_shown(random, [chart, left], u64::from_le_bytes).map(|chart| Call::Judge { chart })
        }
        [Call::CountBytes { table, .. }, Call::CountBytes { table: left, .. }] => {
            both_shown(random, [table, left], u32::from_le_bytes).map(|table| Call::Count { table })
        }
        [Call::ReadingBytes {
            k, table, script, ..
        }, Call::ReadingBytes {
            table: left_table,
            script: left_script,
            ..
        }] => {
            let [table, left_table] = both_shown(random, [table, left_table], u32::from_le_bytes);
            let [script, left_script] =
                both_shown(random, [script, left_script], u16::from_le_bytes);
            [(table, script), (left_table, left_script)].map(|(table, script)| Call::Reading {
                k: *k,
                table,
                script,
            })
        }
        _ => panic!("a call on bytes, before and after"),
    }
}

/// The words that the bytes show, before and after among the same others.
fn both_shown<const SIZE: usize, T: Word>(
    random: &mut Random,
    [before, after]: [&Lent<u8>; 2],
    word: fn([u8; SIZE]) -> T,
) -> [Lent<T>; 2] {
    let lent = Lent::holding(random, &words(before.slice(), word));
    let left = lent.clone().with(&words(after.slice(), word));
    [lent, left]
}
