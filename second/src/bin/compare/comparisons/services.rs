//! The services but those of sessions, with the image and the record of a case.

use crate::comparisons::again::compare_again;
use crate::comparisons::twins::compare_with_twin;
use crate::notes::answers::note;
use crate::notes::tally::Tally;
use crate::plan::case::Case;
use crate::plan::steps::steps;
use second::random::Random;

/// Every call that is planned, with what it tells of others.
pub fn compare(
    random: &mut Random,
    tally: &mut Tally,
    image: &[u8],
    events: &[u16],
) -> Result<(), String> {
    for step in steps(&mut Case::new(random, tally, image, events)) {
        let second = compare_with_twin(random, tally, &step.setting)?;
        compare_again(random, tally, &second)?;
        note(tally, &step, &second);
    }
    Ok(())
}
