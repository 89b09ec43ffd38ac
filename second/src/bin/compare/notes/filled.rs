//! What is told apart among charts and count tables by the record, by how full they are and by where
//! stretches are split.

use crate::calls::setting::Setting;
use crate::draw::lengths::{LENGTHS, PAST_WORD};
use crate::notes::events::{but_for_bit, but_for_bits, symbols_of, EVENT_BITS};
use crate::notes::facts::{facts_about, names, Fact};
use crate::notes::splits::{stretches_with_items, Stretch, OF_SPLITS, WORD_BITS};
use second::derive::cells;
use second::image::{decode, Grammar};

/// The services that fill a table.
const WITH_TABLE: [&str; 6] = [
    "count",
    "reading",
    "number",
    "page",
    "count-bytes",
    "reading-bytes",
];

/// From here on charts are told apart by how full they are.
const LONG: usize = 63;

/// What a call left of an accepted image and a record.
struct Filled {
    grammar: Grammar,
    events: Vec<u16>,
    /// The items of each cell, as in the chart.
    chart: Vec<u64>,
    /// The words of the count table; none if a chart was lent.
    table: Vec<u32>,
    /// Those of several events with an item.
    stretches: Vec<Stretch>,
}

/// The tally's lines for a call that filled a chart or a table.
pub fn lines(setting: &Setting) -> Vec<String> {
    let Some(filled) = Filled::by(setting) else {
        return Vec::new();
    };
    let service = setting.service();
    let told = |what: &String| format!("{service}: {what}");
    filled.remarks().iter().map(told).collect()
}

/// Every line that the tally must have.
pub fn expected() -> Vec<String> {
    let mut all: Vec<_> = names(&OF_CHARTS).collect();
    all.extend(LENGTHS.map(of_length));
    let past_word = PAST_WORD.into_iter();
    all.extend(past_word.flat_map(|n| OF_SPLITS.map(|(what, _)| of_splits(n, what))));
    all.extend(EVENT_BITS.map(but_for_bit));
    let mut lines = Vec::new();
    for service in ["judge", "judge-bytes"] {
        lines.extend(all.iter().map(|what| format!("{service}: {what}")));
    }
    all.extend(names(&OF_TABLES));
    for service in WITH_TABLE {
        lines.extend(all.iter().map(|what| format!("{service}: {what}")));
    }
    lines
}

const OF_CHARTS: [Fact<Filled>; 19] = [
    ("long, items of single events alone", |f| {
        f.long() && !f.several() && f.items() > 0
    }),
    ("long, at most 2 of 100 items", |f| {
        f.long() && f.several() && f.within(0, 2)
    }),
    ("long, about 5 items a cell", |f| f.long() && f.a_cell(4, 6)),
    ("long, about 15 items a cell", |f| {
        f.long() && f.a_cell(12, 18)
    }),
    ("long, about half of all items", |f| {
        f.long() && f.within(45, 55)
    }),
    ("long, all items", |f| f.long() && f.within(100, 100)),
    ("long, 1 pair rule", |f| f.long_by(1)),
    ("long, 2 pair rules", |f| f.long_by(2)),
    ("long, 3 pair rules", |f| f.long_by(3)),
    ("long, 4 pair rules", |f| f.long_by(4)),
    ("long, 5 pair rules", |f| f.long_by(5)),
    ("100 pair rules or more, at most half of all items", |f| {
        f.grammar.pair_rules.len() >= 100 && f.several() && f.within(0, 50)
    }),
    ("1 symbol, 15 events or more", |f| f.has(1, 15)),
    ("63 symbols, 15 events or more", |f| f.has(63, 15)),
    ("64 symbols, 15 events or more", |f| f.has(64, 15)),
    ("events of no, of one and of several symbols", |f| {
        let symbols: Vec<_> = f.events.iter().map(|&e| f.symbols_of(e)).collect();
        let several = symbols.iter().any(|&count| count > 1);
        f.several() && symbols.contains(&0) && symbols.contains(&1) && several
    }),
    ("an event of no rule between two of a rule", |f| {
        let known = |place: usize| f.symbols_of(f.events[place]) > 0;
        let mut places = 2..f.events.len();
        f.several() && places.any(|at| known(at - 2) && !known(at - 1) && known(at))
    }),
    ("a stretch of one firing", |f| {
        f.stretches.iter().any(|s| s.firings == 1)
    }),
    ("a stretch of more firings than items", |f| {
        f.stretches.iter().any(|s| s.firings > s.items)
    }),
];

/// Of tables of records that are longer than a word has bits.
const OF_TABLES: [Fact<Filled>; 9] = [
    ("the largest word but one", |f| {
        f.word(u32::MAX - 1, u32::MAX - 1)
    }),
    ("sparse table, a word of 0", |f| f.sparse() && f.word(0, 0)),
    ("sparse table, a word of 1", |f| f.sparse() && f.word(1, 1)),
    ("sparse table, a word between", |f| {
        f.sparse() && f.word(2, u32::MAX - 1)
    }),
    ("sparse table, the largest word", |f| {
        f.sparse() && f.word(u32::MAX, u32::MAX)
    }),
    ("dense table, a word of 0", |f| f.dense() && f.word(0, 0)),
    ("dense table, a word of 1", |f| f.dense() && f.word(1, 1)),
    ("dense table, a word between", |f| {
        f.dense() && f.word(2, u32::MAX - 1)
    }),
    ("dense table, the largest word", |f| {
        f.dense() && f.word(u32::MAX, u32::MAX)
    }),
];

fn of_length(n: usize) -> String {
    let item = match n {
        1 => "an item",
        _ => "an item of several",
    };
    format!("{n} events, {item}")
}

fn of_splits(n: usize, what: &str) -> String {
    format!("{n} events, {what}")
}

impl Filled {
    /// Nothing if it is another call.
    fn by(setting: &Setting) -> Option<Self> {
        let events = setting.events.slice().to_vec();
        let grammar = decode(setting.image.slice()).ok()?;
        let cells = cells(events.len());
        let (chart, table) = match setting.call.chart_shown() {
            Some(chart) => (chart[..cells].to_vec(), Vec::new()),
            None => {
                let words = &setting.call.table_shown()?[..cells * grammar.symbols];
                let chart = words.chunks(grammar.symbols).map(not_zero).collect();
                (chart, words.to_vec())
            }
        };
        Some(Filled {
            stretches: stretches_with_items(&grammar, events.len(), &chart),
            grammar,
            events,
            chart,
            table,
        })
    }

    fn remarks(&self) -> Vec<String> {
        let n = self.events.len();
        let mut remarks: Vec<_> = facts_about(&OF_CHARTS, self).map(str::to_string).collect();
        if LENGTHS.contains(&n) && (n == 1 && self.items() > 0 || self.several()) {
            remarks.push(of_length(n));
        }
        if PAST_WORD.contains(&n) {
            let is_split = |fact: &&Fact<Stretch>| self.stretches.iter().any(fact.1);
            let splits = OF_SPLITS.iter().filter(is_split);
            remarks.extend(splits.map(|(what, _)| of_splits(n, what)));
        }
        remarks.extend(but_for_bits(&self.grammar, &self.events));
        if n > WORD_BITS {
            remarks.extend(facts_about(&OF_TABLES, self).map(str::to_string));
        }
        remarks
    }

    /// How many symbols turn into the event.
    fn symbols_of(&self, event: u16) -> usize {
        symbols_of(&self.grammar, event)
    }

    fn items(&self) -> usize {
        let ones = self.chart.iter().map(|cell| cell.count_ones() as usize);
        ones.sum()
    }

    fn long(&self) -> bool {
        self.events.len() >= LONG
    }

    /// Whether there is an item of several events.
    fn several(&self) -> bool {
        !self.stretches.is_empty()
    }

    fn long_by(&self, pair_rules: usize) -> bool {
        self.long() && self.several() && self.grammar.pair_rules.len() == pair_rules
    }

    /// Whether there are so many symbols, at least so many events and an item of several.
    fn has(&self, symbols: usize, events: usize) -> bool {
        self.grammar.symbols == symbols && self.events.len() >= events && self.several()
    }

    /// Whether at least and at most so many of a hundred items that there can be are there.
    fn within(&self, least: usize, most: usize) -> bool {
        let all = self.chart.len() * self.grammar.symbols;
        (least * all..=most * all).contains(&(100 * self.items()))
    }

    /// Whether there are at least and at most so many items for each cell.
    fn a_cell(&self, least: usize, most: usize) -> bool {
        let cells = self.chart.len();
        (least * cells..=most * cells).contains(&self.items())
    }

    fn sparse(&self) -> bool {
        self.within(0, 10)
    }

    fn dense(&self) -> bool {
        self.within(50, 100)
    }

    /// Whether the table has a word of at least and at most so much.
    fn word(&self, least: u32, most: u32) -> bool {
        self.table.iter().any(|word| (least..=most).contains(word))
    }
}

/// The symbols whose words of one cell aren't zero, as a word of the chart.
fn not_zero(words: &[u32]) -> u64 {
    let symbols = (0..words.len()).filter(|&a| words[a] > 0);
    symbols.map(|a| 1 << a).sum()
}
