//! The proved services of another commit, whose functions `tools/bench` renames.

use crate::answers::{Counted, Judged};

mod renamed {
    archive::judge_and_count!("before", "before_reader_judge", "before_reader_count");
}

pub fn judge(image: &[u8], events: &[u16], chart: &mut [u64]) -> Judged {
    renamed::judge(image, events, chart).into()
}

pub fn count(image: &[u8], events: &[u16], table: &mut [u32]) -> Counted {
    renamed::count(image, events, table).into()
}
