//! Memory as it is lent to a service, among words that are none of its business.

use crate::calls::side::{Answer, Chart};
use second::random::Random;
use second::session::Session;
use std::fmt::Debug;

/// A word of the lent memory.
pub trait Word: Copy + Debug + PartialEq {
    fn any(random: &mut Random) -> Self;
}

impl Word for u8 {
    fn any(random: &mut Random) -> Self {
        random.word() as u8
    }
}

impl Word for u16 {
    fn any(random: &mut Random) -> Self {
        random.word() as u16
    }
}

impl Word for u32 {
    fn any(random: &mut Random) -> Self {
        random.word() as u32
    }
}

impl Word for u64 {
    fn any(random: &mut Random) -> Self {
        random.word()
    }
}

/// Guard words, the lent slice, guard words again. Two of them are equal only if the guards are, so
/// that a comparison sees a write outside the slice.
#[derive(Clone, PartialEq)]
pub struct Lent<T> {
    words: Vec<T>,
    start: usize,
    len: usize,
}

impl<T: Word> Lent<T> {
    /// A slice of any words, so that one left unwritten is seen.
    pub fn room(random: &mut Random, len: usize) -> Self {
        Lent::guarded(random, len, 8)
    }

    /// With so many guard words behind it.
    fn guarded(random: &mut Random, len: usize, behind: usize) -> Self {
        // Any number before it, so that bytes start at odd addresses too.
        let start = random.within(1, 9);
        let words = (0..start + len + behind).map(|_| T::any(random)).collect();
        Lent { words, start, len }
    }

    pub fn holding(random: &mut Random, words: &[T]) -> Self {
        Lent::room(random, words.len()).with(words)
    }

    /// With these words in the slice.
    pub fn with(mut self, words: &[T]) -> Self {
        self.slice_mut().copy_from_slice(words);
        self
    }

    pub fn slice(&self) -> &[T] {
        &self.words[self.start..self.start + self.len]
    }

    pub fn slice_mut(&mut self) -> &mut [T] {
        &mut self.words[self.start..self.start + self.len]
    }

    /// The first word in which two that were equal differ; its place is counted from the start of
    /// the slice.
    pub fn difference(&self, other: &Self) -> Option<String> {
        let differs = |&place: &usize| self.words[place] != other.words[place];
        let found = (0..self.words.len()).find(differs)?;
        let (ours, others) = (self.words[found], other.words[found]);
        let place = found as isize - self.start as isize;
        Some(format!("word {place}, {ours:?} beside {others:?}"))
    }
}

impl Lent<u8> {
    /// Any bytes, with guards behind them like eight words of any size.
    pub fn bytes(random: &mut Random, len: usize) -> Self {
        Lent::guarded(random, len, 64)
    }

    /// How far past a multiple of eight the first byte stands in memory.
    pub fn offset(&self) -> usize {
        self.slice().as_ptr() as usize % 8
    }
}

/// A session in its two parts.
#[derive(Clone, PartialEq)]
pub struct LentSession {
    pub chart: Lent<u64>,
    pub count: Lent<u64>,
}

impl LentSession {
    pub fn holding(random: &mut Random, session: &Session) -> Self {
        LentSession {
            // One column more would have 33 words.
            chart: Lent::guarded(random, session.chart.len(), 40).with(&session.chart),
            count: Lent::holding(random, &[session.count]),
        }
    }

    /// With another session in the same place.
    pub fn with(self, session: &Session) -> Self {
        LentSession {
            chart: self.chart.with(&session.chart),
            count: self.count.with(&[session.count]),
        }
    }

    pub fn session(&self) -> Session {
        let chart = self.chart.slice().try_into().expect("a session's chart");
        let count = self.count.slice()[0];
        Session { chart, count }
    }

    pub fn describe(&self) -> String {
        let Session { chart, count } = self.session();
        format!("count = {count}, chart {chart:x?}")
    }

    /// Both parts, to a call.
    pub fn lend(&mut self, call: impl Fn(&mut Chart, &mut u64) -> Answer) -> Answer {
        let chart = self.chart.slice_mut().try_into();
        let count = &mut self.count.slice_mut()[0];
        call(chart.expect("a session's chart"), count)
    }
}
