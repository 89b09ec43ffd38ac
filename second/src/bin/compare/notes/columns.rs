//! What is told apart among sessions by the words of the column that is worked out or cleared, before
//! it and past it.

use crate::draw::symbols::symbol_bits;
use crate::notes::facts::Fact;
use second::derive::{cell, cells};
use second::session::Session;
use std::ops::Range;

/// A column, and the session before and after the call.
pub struct Column {
    pub k: usize,
    pub before: Session,
    pub after: Session,
    /// N of the image.
    pub symbols: usize,
    pub firings: u64,
}

pub const OF_ADDS: [Fact<Column>; 9] = [
    ("admitted", |c| c.admitted()),
    ("admitted, not before", |c| {
        c.admitted() && !c.was_admitted()
    }),
    ("admitted, no other symbol", |c| {
        c.top() == 1 && c.symbols > 1
    }),
    ("admitted, not the event alone", |c| {
        c.admitted() && c.of_event() & 1 == 0
    }),
    ("not admitted, but before", |c| {
        !c.admitted() && c.was_admitted()
    }),
    ("not admitted, another symbol", |c| {
        !c.admitted() && c.top() != 0
    }),
    ("not admitted, but the event alone", |c| {
        !c.admitted() && c.of_event() & 1 == 1
    }),
    ("no firing", |c| c.firings == 0),
    ("more firings than items", |c| c.firings > c.items()),
];

/// Of adds to strange sessions.
pub const OF_STRANGE_ADDS: [Fact<Column>; 5] = [
    ("more firings than 16 bits tell", |c| c.firings > 0xFFFF),
    ("a bit that the column had goes", |c| {
        c.own()
            .any(|at| c.before.chart[at] & !c.after.chart[at] != 0)
    }),
    ("an older bit from N up", |c| c.has_unknown(c.older())),
    ("the column had a bit from N up", |c| c.has_unknown(c.own())),
    ("a word past the column", |c| c.has_bits(c.past())),
];

/// Of take-backs from strange sessions.
pub const OF_STRANGE_TAKE_BACKS: [Fact<Column>; 3] = [
    ("the column has a bit", |c| c.has_bits(c.own())),
    ("an older bit", |c| c.has_bits(c.older())),
    ("a word past the column", |c| c.has_bits(c.past())),
];

impl Column {
    fn own(&self) -> Range<usize> {
        cells(self.k - 1)..cells(self.k)
    }

    fn older(&self) -> Range<usize> {
        0..cells(self.k - 1)
    }

    fn past(&self) -> Range<usize> {
        cells(self.k)..self.before.chart.len()
    }

    fn has_bits(&self, mut words: Range<usize>) -> bool {
        words.any(|at| self.before.chart[at] != 0)
    }

    fn has_unknown(&self, mut words: Range<usize>) -> bool {
        words.any(|at| self.before.chart[at] & !symbol_bits(self.symbols) != 0)
    }

    /// The word of all events.
    fn top(&self) -> u64 {
        self.after.chart[cell(0, self.k)]
    }

    /// The word of the last event alone.
    fn of_event(&self) -> u64 {
        self.after.chart[cell(self.k - 1, self.k)]
    }

    fn admitted(&self) -> bool {
        self.top() & 1 == 1
    }

    fn was_admitted(&self) -> bool {
        self.k > 1 && self.before.chart[cell(0, self.k - 1)] & 1 == 1
    }

    fn items(&self) -> u64 {
        let ones = self.own().map(|at| self.after.chart[at].count_ones());
        ones.map(u64::from).sum()
    }
}
