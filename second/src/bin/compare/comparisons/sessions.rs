//! Sessions with the image of a case.

use crate::comparisons::grown::grow;
use crate::comparisons::session_calls::SessionCalls;
use crate::comparisons::strange::handle_strange;

/// One that grows if the image is accepted, and strange ones with any image.
pub fn compare(mut calls: SessionCalls) -> Result<(), String> {
    if calls.accepted {
        grow(&mut calls)?;
        handle_strange(&mut calls)?;
    }
    handle_strange(&mut calls)
}
