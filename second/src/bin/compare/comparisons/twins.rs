//! Version 1 images beside their twins of version 2.

use crate::calls::called::Called;
use crate::calls::lent::Lent;
use crate::calls::proved_side::PROVED;
use crate::calls::setting::Setting;
use crate::comparisons::agreement::{agree, compare_sides};
use crate::notes::tally::Tally;
use second::examples::version_2;
use second::random::Random;

/// How a call ends if both sides agree, and the proved side with itself on the twin of the image.
pub fn compare_with_twin(
    random: &mut Random,
    tally: &mut Tally,
    lent: &Setting,
) -> Result<Called, String> {
    let second = compare_sides(lent)?;
    if let Some((flag, twin)) = twin(random, lent) {
        tally.add(format!("{}: twin with flag {flag}", twin.service()));
        compare_twin(&twin, &second)?;
    }
    Ok(second)
}

/// The call with the same image in version 2, and the flag of that; nothing if it isn't version 1.
/// Both must end alike: flag 0 keeps the old meaning, and flag 1 does so for a record with events.
fn twin(random: &mut Random, setting: &Setting) -> Option<(u8, Setting)> {
    let image = setting.image.slice();
    if image.len() < 10 || image[3..5] != [1, 0] {
        return None;
    }
    let flag = match setting.events.slice() {
        [] => 0,
        _ => random.below(2) as u8,
    };
    let twin = Setting {
        image: Lent::holding(random, &version_2(image, flag)),
        ..setting.clone()
    };
    Some((flag, twin))
}

/// The proved side must end with the twin as both sides did with the version 1 image.
fn compare_twin(twin: &Setting, second: &Called) -> Result<(), String> {
    let proved = Called::by(&PROVED, twin);
    let setting = Setting {
        image: twin.image.clone(),
        ..second.setting.clone()
    };
    let answer = second.answer;
    let version_1 = Called { answer, setting };
    agree(twin, [("version 2", &proved), ("version 1", &version_1)])
}
