//! The seven services that keep nothing from one call to the next.

pub use crate::answers::{Checked, Counted, Judged, Numbered, Paged, Read, Tested};
use crate::derive::{cell, cells, derivable, firings, stretches};
use crate::image::{decode, refuse_if, Grammar, Refusal};
use crate::readings::{cut, is_reading, Readings};
use crate::trees::script_words;

/// A record may have so many events.
pub const MOST_EVENTS: usize = 96;

/// Tests a grammar image.
pub fn test(image: &[u8]) -> Tested {
    match decode(image) {
        Ok(grammar) => Tested {
            number: 0,
            rule: 0,
            symbols: grammar.symbols,
            event_rules: grammar.event_rules.len(),
            pair_rules: grammar.pair_rules.len(),
        },
        Err(refusal) => refusal.into(),
    }
}

/// Judges a record: fills the chart, gives the verdict, the items and the firings.
pub fn judge(image: &[u8], events: &[u16], chart: &mut [u64]) -> Judged {
    judged(image, events, chart).unwrap_or_else(Judged::from)
}

/// Counts the readings: fills the count table, gives the total.
pub fn count(image: &[u8], events: &[u16], table: &mut [u32]) -> Counted {
    counted(image, events, table).unwrap_or_else(Counted::from)
}

/// Gives reading number `k` as a script, and fills the count table.
pub fn reading(
    image: &[u8],
    events: &[u16],
    k: u32,
    table: &mut [u32],
    script: &mut [u16],
) -> Read {
    match read(image, events, k, table, script) {
        Ok(()) => Read { number: 0, rule: 0 },
        Err(refusal) => refusal.into(),
    }
}

/// Checks a script that somebody else wrote.
pub fn check(image: &[u8], events: &[u16], script: &[u16]) -> Checked {
    match accept(image, events) {
        Ok(grammar) => Checked {
            number: 0,
            rule: 0,
            yes: is_reading(&grammar, events, script),
        },
        Err(refusal) => refusal.into(),
    }
}

/// Gives the number of the reading that a script is of, and fills the count table.
pub fn number(image: &[u8], events: &[u16], script: &[u16], table: &mut [u32]) -> Numbered {
    match numbered(image, events, script, table) {
        Ok(reading) => Numbered {
            number: 0,
            rule: 0,
            reading,
        },
        Err(refusal) => refusal.into(),
    }
}

/// Gives readings `k` to `k` + `m` - 1 as scripts, one after the other from the front of the room
/// and fewer where the numbers end, and fills the count table.
pub fn page(
    image: &[u8],
    events: &[u16],
    k: u32,
    m: u32,
    table: &mut [u32],
    room: &mut [u16],
) -> Paged {
    match paged(image, events, k, m, table, room) {
        Ok(written) => Paged {
            number: 0,
            rule: 0,
            written,
        },
        Err(refusal) => refusal.into(),
    }
}

/// Refusals 1 to 7, 15 and 8, with which every service over a record begins.
fn accept(image: &[u8], events: &[u16]) -> Result<Grammar, Refusal> {
    let grammar = decode(image)?;
    refuse_if(events.len() > MOST_EVENTS, 8)?;
    Ok(grammar)
}

/// The same and 10, with which every service that fills a count table begins.
fn accept_table(image: &[u8], events: &[u16], table: &[u32]) -> Result<Grammar, Refusal> {
    let grammar = accept(image, events)?;
    refuse_if(table.len() < grammar.symbols * cells(events.len()), 10)?;
    Ok(grammar)
}

fn judged(image: &[u8], events: &[u16], chart: &mut [u64]) -> Result<Judged, Refusal> {
    let grammar = accept(image, events)?;
    let n = events.len();
    refuse_if(chart.len() < cells(n), 9)?;
    let derivable = derivable(&grammar, events);
    for (i, k) in stretches(n) {
        let symbols = (0..grammar.symbols).filter(|&a| derivable.get(a, i, k));
        chart[cell(i, k)] = symbols.map(|a| 1_u64 << a).sum();
    }
    let ones = chart[..cells(n)].iter().map(|c| u64::from(c.count_ones()));
    Ok(Judged {
        number: 0,
        rule: 0,
        admitted: match n {
            0 => grammar.admits_empty,
            n => derivable.get(0, 0, n),
        },
        items: ones.sum(),
        firings: firings(&grammar, events, &derivable),
    })
}

/// Fills the count table.
fn filled<'a>(grammar: &'a Grammar, events: &'a [u16], table: &mut [u32]) -> Readings<'a> {
    let readings = Readings::of(grammar, events);
    let words = readings.table();
    table[..words.len()].copy_from_slice(&words);
    readings
}

fn counted(image: &[u8], events: &[u16], table: &mut [u32]) -> Result<Counted, Refusal> {
    let grammar = accept_table(image, events, table)?;
    let readings = filled(&grammar, events, table);
    Ok(Counted {
        number: 0,
        rule: 0,
        total: cut(readings.total()),
    })
}

fn read(
    image: &[u8],
    events: &[u16],
    k: u32,
    table: &mut [u32],
    script: &mut [u16],
) -> Result<(), Refusal> {
    let grammar = accept_table(image, events, table)?;
    let words = script_words(events.len());
    refuse_if(script.len() < words, 11)?;
    let readings = filled(&grammar, events, table);
    accept_number(k, readings.total())?;
    script[..words].copy_from_slice(&readings.script(k.into()));
    Ok(())
}

/// Refusals 12 and 13, where there are so many readings.
fn accept_number(k: u32, total: u64) -> Result<(), Refusal> {
    let past_numbering = k == u32::MAX && total >= u32::MAX.into();
    refuse_if(u64::from(k) >= total && !past_numbering, 12)?;
    refuse_if(past_numbering, 13)
}

fn paged(
    image: &[u8],
    events: &[u16],
    k: u32,
    m: u32,
    table: &mut [u32],
    room: &mut [u16],
) -> Result<u32, Refusal> {
    let grammar = accept_table(image, events, table)?;
    let words = script_words(events.len());
    // Sums and products of what is asked for have 64 bits.
    let (first, asked) = (u64::from(k), u64::from(m));
    refuse_if((room.len() as u64) < asked * words as u64, 11)?;
    let readings = filled(&grammar, events, table);
    accept_number(k, readings.total())?;
    // Numbers end at the count, and at 4,294,967,295, which none has.
    let end = (first + asked).min(cut(readings.total()).into());
    for (place, number) in (first..end).enumerate() {
        let script = &mut room[place * words..(place + 1) * words];
        script.copy_from_slice(&readings.script(number));
    }
    Ok((end - first) as u32)
}

fn numbered(
    image: &[u8],
    events: &[u16],
    script: &[u16],
    table: &mut [u32],
) -> Result<u32, Refusal> {
    let grammar = accept_table(image, events, table)?;
    let number = filled(&grammar, events, table).number(script);
    let number = number.ok_or(Refusal {
        number: 12,
        rule: 0,
    })?;
    refuse_if(number >= u32::MAX.into(), 13)?;
    Ok(number as u32)
}
