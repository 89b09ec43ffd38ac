//! What a call needs of its events and of its memory, so that one that is refused could be refused
//! for more.

use crate::calls::call::{Call, CHART, SCRIPT, TABLE};
use crate::calls::setting::Setting;
use second::bytes::MOST_BYTES;
use second::derive::cells;
use second::services::MOST_EVENTS;
use second::trees::script_words;

/// The refusal of 8 to 11 and 14 that the call would get if no symbol were dead.
pub fn later_refusal(setting: &Setting) -> Option<u8> {
    past_the_image(setting).first().copied()
}

/// All refusals of 8 to 11 and 14 that apply to the call, in their order, given an image that isn't
/// refused but for dead symbols.
pub fn past_the_image(setting: &Setting) -> Vec<u8> {
    let n = setting.events.slice().len();
    let chart = setting.call.chart_shown();
    let table = setting.call.table_shown();
    let scripts = scripts_lent(&setting.call);
    let mut all = of_the_events(setting);
    all.extend(those_true([
        (9, chart.is_some_and(|c| c.len() < cells(n))),
        (10, table.is_some_and(|t| t.len() < table_words(setting))),
        (
            11,
            scripts.is_some_and(|(len, m)| len < m * script_words(n)),
        ),
    ]));
    all
}

/// 8 and 14, whatever the image.
pub fn of_the_events(setting: &Setting) -> Vec<u8> {
    let n = setting.events.slice().len();
    let [long, odd] = match setting.call.event_bytes() {
        Some(bytes) => [bytes > MOST_BYTES, bytes % 2 == 1],
        None => [n > MOST_EVENTS && setting.call != Call::Test, false],
    };
    those_true([(8, long), (14, odd)])
}

fn those_true<const COUNT: usize>(refusals: [(u8, bool); COUNT]) -> Vec<u8> {
    let apply = refusals.into_iter().filter(|(_, applies)| *applies);
    apply.map(|(number, _)| number).collect()
}

/// The words of the room for scripts, and how many scripts it is for.
fn scripts_lent(call: &Call) -> Option<(usize, usize)> {
    match call {
        Call::Reading { script, .. } => Some((script.slice().len(), 1)),
        Call::ReadingBytes { script, .. } => Some((script.slice().len() / 2, 1)),
        Call::Page { m, room, .. } => Some((room.slice().len(), *m as usize)),
        _ => None,
    }
}

/// The words of a count table, given an image that isn't refused but for dead symbols.
pub fn table_words(setting: &Setting) -> usize {
    cells(setting.events.slice().len()) * usize::from(setting.image.slice()[5])
}

/// How many words a part of what a call on bytes is lent must show, and the bytes of each; nothing
/// for the events.
pub fn words_to_show(setting: &Setting, part: &str) -> Option<(usize, usize)> {
    let n = setting.events.slice().len();
    match part {
        CHART => Some((cells(n), size_of::<u64>())),
        TABLE => Some((table_words(setting), size_of::<u32>())),
        SCRIPT => Some((script_words(n), size_of::<u16>())),
        _ => None,
    }
}
