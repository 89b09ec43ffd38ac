//! The limits, and the numbers that follow from a number of events.

/// A record of more events than this is refused.
pub const MOST_EVENTS: usize = 96;

/// A count that is at least this is reported as this.
pub const LIMIT: u64 = u32::MAX as u64;

/// A session takes no more events than this.
pub const SESSION_EVENTS: usize = 32;

/// The chart that a session carries.
pub type SessionChart = [u64; cells(SESSION_EVENTS)];

/// The cells of a number of events.
pub const fn cells(events: usize) -> usize {
    events * (events + 1) / 2
}

/// The splits of all stretches of a number of events.
pub fn splits(events: usize) -> usize {
    (events.pow(3) - events) / 6
}

/// The words of a script over a number of events.
pub fn script_words(events: usize) -> usize {
    (4 * events).saturating_sub(2)
}
