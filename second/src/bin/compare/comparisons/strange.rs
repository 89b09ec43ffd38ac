//! Sessions that nobody has grown.

use crate::calls::called::Called;
use crate::comparisons::session_calls::SessionCalls;
use crate::notes::sessions::{drawn, STRANGE};

/// An event is added to a strange session and one is taken back, in either order.
pub fn handle_strange(calls: &mut SessionCalls) -> Result<(), String> {
    let (name, mut session) = calls.any_session();
    let place = calls.random.below(64);
    let event = calls.any_event(place, 2);
    let back_first = calls.random.once_in(4);
    for back in [back_first, !back_first] {
        let Called { answer, setting } = match back {
            true => calls.take_back(STRANGE, session, &[])?,
            false => calls.add(STRANGE, session, &[event])?,
        };
        let (service, number) = (setting.service(), answer.number);
        calls.tally.add(drawn(service, name, number));
        session = setting.session().clone();
    }
    Ok(())
}
