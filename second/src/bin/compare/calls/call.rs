//! The services, and what each is lent.

use crate::calls::lent::{Lent, LentSession};
use second::bytes::words;
use std::borrow::Cow;

/// The parts of what a call on bytes is lent.
pub const EVENTS: &str = "events";
pub const CHART: &str = "chart";
pub const TABLE: &str = "table";
pub const SCRIPT: &str = "script room";

/// A service, and the memory that it alone is lent.
#[derive(Clone, PartialEq)]
pub enum Call {
    Test,
    Judge {
        chart: Lent<u64>,
    },
    Count {
        table: Lent<u32>,
    },
    Reading {
        k: u32,
        table: Lent<u32>,
        script: Lent<u16>,
    },
    Check {
        script: Lent<u16>,
    },
    Number {
        script: Lent<u16>,
        table: Lent<u32>,
    },
    Page {
        k: u32,
        m: u32,
        table: Lent<u32>,
        room: Lent<u16>,
    },
    Begin {
        session: LentSession,
    },
    Add {
        session: LentSession,
        event: u16,
    },
    TakeBack {
        session: LentSession,
    },
    JudgeBytes {
        events: Lent<u8>,
        chart: Lent<u8>,
    },
    CountBytes {
        events: Lent<u8>,
        table: Lent<u8>,
    },
    ReadingBytes {
        events: Lent<u8>,
        k: u32,
        table: Lent<u8>,
        script: Lent<u8>,
    },
}

impl Call {
    pub fn chart(&self) -> Option<&Lent<u64>> {
        match self {
            Call::Judge { chart } => Some(chart),
            call => Some(&call.session()?.chart),
        }
    }

    pub fn session(&self) -> Option<&LentSession> {
        match self {
            Call::Begin { session } | Call::Add { session, .. } | Call::TakeBack { session } => {
                Some(session)
            }
            _ => None,
        }
    }

    /// How many events the session has.
    pub fn count(&self) -> Option<&Lent<u64>> {
        Some(&self.session()?.count)
    }

    pub fn table(&self) -> Option<&Lent<u32>> {
        match self {
            Call::Count { table }
            | Call::Reading { table, .. }
            | Call::Number { table, .. }
            | Call::Page { table, .. } => Some(table),
            _ => None,
        }
    }

    /// The words of one script or of several.
    pub fn script(&self) -> Option<&Lent<u16>> {
        match self {
            Call::Reading { script, .. } | Call::Check { script } | Call::Number { script, .. } => {
                Some(script)
            }
            Call::Page { room, .. } => Some(room),
            _ => None,
        }
    }

    /// Each part of what a call on bytes is lent, by name; nothing of another call.
    pub fn bytes(&self) -> Vec<(&'static str, &Lent<u8>)> {
        match self {
            Call::JudgeBytes { events, chart } => vec![(EVENTS, events), (CHART, chart)],
            Call::CountBytes { events, table } => vec![(EVENTS, events), (TABLE, table)],
            Call::ReadingBytes {
                events,
                table,
                script,
                ..
            } => vec![(EVENTS, events), (TABLE, table), (SCRIPT, script)],
            _ => Vec::new(),
        }
    }

    /// How many bytes the events of a call on bytes have.
    pub fn event_bytes(&self) -> Option<usize> {
        let bytes = self.bytes();
        let (_, events) = bytes.first()?;
        Some(events.slice().len())
    }

    /// The words that a judgement leaves, or those that its bytes show.
    pub fn chart_shown(&self) -> Option<Cow<'_, [u64]>> {
        match self {
            Call::Judge { chart } => Some(chart.slice().into()),
            Call::JudgeBytes { chart, .. } => Some(words(chart.slice(), u64::from_le_bytes).into()),
            _ => None,
        }
    }

    /// The words of a count table, or those that its bytes show.
    pub fn table_shown(&self) -> Option<Cow<'_, [u32]>> {
        match self {
            Call::CountBytes { table, .. } | Call::ReadingBytes { table, .. } => {
                Some(words(table.slice(), u32::from_le_bytes).into())
            }
            call => Some(call.table()?.slice().into()),
        }
    }
}
