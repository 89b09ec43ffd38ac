//! A session: its chart gets a column for each event, by the loops of `judge`.

use super::by_left::ByLeft;
use super::judge::{fill_column, Columns, Pairs};
use super::{cell, test_image};
use crate::answers::{Added, Refusal};
use crate::sizes::{cells, SessionChart, SESSION_EVENTS};

pub fn begin(chart: &mut SessionChart, count: &mut u64) {
    chart.fill(0);
    *count = 0;
}

pub fn add(image: &[u8], chart: &mut SessionChart, count: &mut u64, event: u16) -> Added {
    add_by::<Columns>(image, chart, count, event)
}

pub fn add_skipping(image: &[u8], chart: &mut SessionChart, count: &mut u64, event: u16) -> Added {
    add_by::<ByLeft<u64>>(image, chart, count, event)
}

/// Refusals 1 to 7, 15 and 17, or the new column, the verdict so far and the column's firings.
fn add_by<P: Pairs>(image: &[u8], chart: &mut SessionChart, count: &mut u64, event: u16) -> Added {
    let grammar = match test_image(image) {
        Ok(grammar) => grammar,
        Err(refusal) => return Added::from(refusal),
    };
    if *count >= SESSION_EVENTS as u64 {
        return Added::from(Refusal::from(17));
    }
    let q = *count as usize;
    let firings = fill_column(&grammar, &P::new(grammar.pairs), event, q, chart);
    *count += 1;
    Added {
        refusal: 0.into(),
        admitted: chart[cell(0, q + 1)] & 1 == 1,
        firings,
    }
}

/// Refusal 18, or the last column cleared.
pub fn take_back(chart: &mut SessionChart, count: &mut u64) -> Refusal {
    if !(1..=SESSION_EVENTS as u64).contains(count) {
        return 18.into();
    }
    let last = *count as usize;
    chart[cells(last - 1)..cells(last)].fill(0);
    *count -= 1;
    0.into()
}
