//! What one service gives another gives too: numbers and scripts undo each other, and the scripts
//! of a page are those of single readings.

use crate::calls::call::Call;
use crate::calls::called::Called;
use crate::calls::lent::Lent;
use crate::calls::proved_side::PROVED;
use crate::calls::setting::Setting;
use crate::comparisons::agreement::agree;
use crate::notes::tally::Tally;
use second::random::Random;
use second::trees::script_words;

/// With a longer record a call takes longer, and is followed by another once in a few times only.
const SHORT: usize = 16;

/// The proved side must end another call as this one told, if there is one that it told of.
pub fn compare_again(
    random: &mut Random,
    tally: &mut Tally,
    called: &Called,
) -> Result<(), String> {
    let Some((again, told)) = again(random, called) else {
        return Ok(());
    };
    tally.add(format!("{}: told again", called.setting.service()));
    let proved = Called::by(&PROVED, &again);
    agree(&again, [("proved", &proved), ("told", &told)])
}

/// The call that takes back what a reading or a number gave, or that gives one script of a page,
/// and how it must end; nothing after another call, a refusal or a page without scripts. It is lent
/// the table as that was left, and so leaves it as it is.
fn again(random: &mut Random, called: &Called) -> Option<(Setting, Called)> {
    let Called { answer, setting } = called;
    let n = setting.events.slice().len();
    if answer.number != 0 || n > SHORT && !random.once_in(3) {
        return None;
    }
    let words = script_words(n);
    match &setting.call {
        Call::Reading { k, table, script } => {
            let script = Lent::holding(random, &script.slice()[..words]);
            let table = table.clone();
            let number = setting.with_call(Call::Number { script, table });
            let told = Called::with_success([(*k).into(), 0, 0], number.clone());
            Some((number, told))
        }
        Call::Number { script, table } => {
            let k = answer.rest[0] as u32;
            Some(reading(random, setting, k, table, script.slice()))
        }
        Call::Page { k, table, room, .. } if answer.rest[0] > 0 => {
            let place = random.below(answer.rest[0] as usize);
            let script = &room.slice()[place * words..(place + 1) * words];
            Some(reading(random, setting, k + place as u32, table, script))
        }
        _ => None,
    }
}

/// The reading of this number, which must have these words.
fn reading(
    random: &mut Random,
    setting: &Setting,
    k: u32,
    table: &Lent<u32>,
    words: &[u16],
) -> (Setting, Called) {
    let (table, script) = (table.clone(), Lent::room(random, words.len()));
    let reading = setting.with_call(Call::Reading { k, table, script });
    let mut told = Called::with_success([0; 3], reading.clone());
    if let Call::Reading { script, .. } = &mut told.setting.call {
        script.slice_mut().copy_from_slice(words);
    }
    (reading, told)
}
