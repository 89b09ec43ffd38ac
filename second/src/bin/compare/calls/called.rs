//! How a call ended: its answer, and every word that it was lent.

use crate::calls::setting::Setting;
use crate::calls::side::{answer, Answer, Side};

/// How a call ended.
pub struct Called {
    pub answer: Answer,
    /// What was lent, as the call left it.
    pub setting: Setting,
}

impl Called {
    /// The call as this side ends it.
    pub fn by(side: &Side, lent: &Setting) -> Self {
        let mut setting = lent.clone();
        let answer = setting.answer(side);
        Called { answer, setting }
    }

    /// With success, and what was lent left like this.
    pub fn with_success(rest: [u64; 3], setting: Setting) -> Self {
        let answer = answer(0, 0, rest);
        Called { answer, setting }
    }
}
