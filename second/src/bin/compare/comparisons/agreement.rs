//! Two calls that must end alike: those of both sides, or others that were lent the same.

use crate::calls::called::Called;
use crate::calls::proved_side::PROVED;
use crate::calls::second_side::SECOND;
use crate::calls::setting::Setting;

/// How a call ends if both sides agree.
pub fn compare_sides(lent: &Setting) -> Result<Called, String> {
    let (proved, second) = (Called::by(&PROVED, lent), Called::by(&SECOND, lent));
    agree(lent, [("proved", &proved), ("second", &second)])?;
    Ok(second)
}

/// An error if two calls that were lent the same don't end alike, and in what.
pub fn agree(lent: &Setting, [one, other]: [(&str, &Called); 2]) -> Result<(), String> {
    let ((one_name, one), (other_name, other)) = (one, other);
    if one.answer == other.answer && one.setting == other.setting {
        return Ok(());
    }
    let word = one.setting.difference(&other.setting);
    Err(format!(
        "{}\nthe {one_name} answer: {:?}\nthe {other_name} answer: {:?}\nfirst different word: {}",
        lent.describe(),
        one.answer,
        other.answer,
        word.unwrap_or("none".to_string()),
    ))
}
