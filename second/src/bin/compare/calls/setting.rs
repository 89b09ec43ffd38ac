//! A service with all that it is lent.

use crate::calls::call::Call;
use crate::calls::lent::{Lent, LentSession, Word};
use crate::calls::side::{Answer, Side};

/// Equal if every word is, lent or not.
#[derive(Clone, PartialEq)]
pub struct Setting {
    pub image: Lent<u8>,
    /// Of a call with a session those that are known of it: all if it was grown, and the one that
    /// is added. Of a call on bytes those that its bytes show.
    pub events: Lent<u16>,
    pub call: Call,
}

impl Setting {
    /// Another call with the same image and events.
    pub fn with_call(&self, call: Call) -> Self {
        Setting {
            call,
            ..self.clone()
        }
    }

    /// That of a call with one.
    pub fn session(&self) -> &LentSession {
        self.call.session().expect("a call with a session")
    }

    pub fn answer(&mut self, side: &Side) -> Answer {
        let (image, events) = (self.image.slice(), self.events.slice());
        match &mut self.call {
            Call::Test => (side.test)(image),
            Call::Judge { chart } => (side.judge)(image, events, chart.slice_mut()),
            Call::Count { table } => (side.count)(image, events, table.slice_mut()),
            Call::Reading { k, table, script } => {
                (side.reading)(image, events, *k, table.slice_mut(), script.slice_mut())
            }
            Call::Check { script } => (side.check)(image, events, script.slice()),
            Call::Number { script, table } => {
                (side.number)(image, events, script.slice(), table.slice_mut())
            }
            Call::Page { k, m, table, room } => {
                let (table, room) = (table.slice_mut(), room.slice_mut());
                (side.page)(image, events, *k, *m, table, room)
            }
            Call::Begin { session } => session.lend(side.begin),
            Call::Add { session, event } => {
                session.lend(|chart, count| (side.add)(image, chart, count, *event))
            }
            Call::TakeBack { session } => session.lend(side.take_back),
            Call::JudgeBytes { events, chart } => {
                (side.judge_bytes)(image, events.slice(), chart.slice_mut())
            }
            Call::CountBytes { events, table } => {
                (side.count_bytes)(image, events.slice(), table.slice_mut())
            }
            Call::ReadingBytes {
                events,
                k,
                table,
                script,
            } => {
                let (table, script) = (table.slice_mut(), script.slice_mut());
                (side.reading_bytes)(image, events.slice(), *k, table, script)
            }
        }
    }

    pub fn service(&self) -> &'static str {
        match self.call {
            Call::Test => "test",
            Call::Judge { .. } => "judge",
            Call::Count { .. } => "count",
            Call::Reading { .. } => "reading",
            Call::Check { .. } => "check",
            Call::Number { .. } => "number",
            Call::Page { .. } => "page",
            Call::Begin { .. } => "begin",
            Call::Add { .. } => "add",
            Call::TakeBack { .. } => "take-back",
            Call::JudgeBytes { .. } => "judge-bytes",
            Call::CountBytes { .. } => "count-bytes",
            Call::ReadingBytes { .. } => "reading-bytes",
        }
    }

    /// What is needed to make the call by hand.
    pub fn describe(&self) -> String {
        let lent = match &self.call {
            Call::Test => String::new(),
            Call::Judge { chart } => format!("chart of {} words", chart.slice().len()),
            Call::Count { table } => format!("table of {} words", table.slice().len()),
            Call::Reading { k, table, script } => {
                let (table, script) = (table.slice().len(), script.slice().len());
                format!("k = {k}, table of {table} words, script room of {script} words")
            }
            Call::Check { script } => format!("script {:?}", script.slice()),
            Call::Number { script, table } => {
                let (script, table) = (script.slice(), table.slice().len());
                format!("script {script:?}, table of {table} words")
            }
            Call::Page { k, m, table, room } => {
                let (table, room) = (table.slice().len(), room.slice().len());
                format!("k = {k}, m = {m}, table of {table} words, room of {room} words")
            }
            Call::Begin { session } | Call::TakeBack { session } => session.describe(),
            Call::Add { session, event } => format!("event = {event}, {}", session.describe()),
            Call::JudgeBytes { .. } | Call::CountBytes { .. } => self.describe_bytes(),
            Call::ReadingBytes { k, .. } => format!("k = {k}, {}", self.describe_bytes()),
        };
        let (image, events) = (self.image.slice(), self.events.slice());
        let service = self.service();
        format!("{service} {lent}\nimage {image:02x?}\nevents {events:?}")
    }

    fn describe_bytes(&self) -> String {
        let parts = self.call.bytes().into_iter();
        let lengths = parts.map(|(what, part)| format!("{what} of {} bytes", part.slice().len()));
        lengths.collect::<Vec<_>>().join(", ")
    }

    /// The first word in which two that were equal before the call differ, or byte of a call on bytes.
    pub fn difference(&self, other: &Self) -> Option<String> {
        let (ours, others) = (&self.call, &other.call);
        let words = [
            ("image", self.image.difference(&other.image)),
            ("events", self.events.difference(&other.events)),
            ("chart", difference(ours.chart(), others.chart())),
            ("count", difference(ours.count(), others.count())),
            ("table", difference(ours.table(), others.table())),
            ("script", difference(ours.script(), others.script())),
        ];
        let bytes = ours.bytes().into_iter().zip(others.bytes());
        let bytes = bytes.map(|((what, ours), (_, others))| (what, ours.difference(others)));
        let mut found = words.into_iter().chain(bytes);
        found.find_map(|(what, word)| Some(format!("{what}, {}", word?)))
    }
}

/// Nothing if the service is lent none of this.
fn difference<T: Word>(ours: Option<&Lent<T>>, others: Option<&Lent<T>>) -> Option<String> {
    ours?.difference(others?)
}

/// A call, and what is said of it in the tally beside its answer.
pub struct Step {
    pub setting: Setting,
    pub note: String,
}
