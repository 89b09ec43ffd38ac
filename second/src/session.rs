//! Events as they arrive: a session carries the chart of the events so far, and is handed back after
//! each.

pub use crate::answers::Added;
use crate::derive::cell;
use crate::image::{decode, refuse_if, Grammar, Refusal};

/// A session may have so many events.
pub const MOST_ADDED: u64 = 32;

/// The words of a session's chart, enough for that many.
pub const CHART_WORDS: usize = 528;

/// Any words with any count: nobody says that it was grown from the empty one.
#[derive(Clone, Copy, Debug, PartialEq)]
pub struct Session {
    /// Cells stand where they do in every chart.
    pub chart: [u64; CHART_WORDS],
    /// How many events it has.
    pub count: u64,
}

/// The session without events.
pub fn begin() -> Session {
    Session {
        chart: [0; CHART_WORDS],
        count: 0,
    }
}

/// Adds an event: works out one column, and gives the verdict so far and that column's firings. A
/// refusal hands the session back as it was.
pub fn add(image: &[u8], session: Session, event: u16) -> (Session, Added) {
    added(image, session, event).unwrap_or_else(|refusal| (session, refusal.into()))
}

/// Takes the last event back, with 0, or hands the session back as it was, with 18.
pub fn take_back(session: Session) -> (Session, u8) {
    match taken_back(session) {
        Ok(shorter) => (shorter, 0),
        Err(Refusal { number, .. }) => (session, number),
    }
}

fn added(image: &[u8], mut session: Session, event: u16) -> Result<(Session, Added), Refusal> {
    let grammar = decode(image)?;
    refuse_if(session.count >= MOST_ADDED, 17)?;
    session.count += 1;
    let k = session.count as usize;
    let mut firings = 0;
    // The shorter before the longer, which are made up of them.
    for i in (0..k).rev() {
        let fired = fired(&grammar, &session.chart, event, i, k);
        session.chart[cell(i, k)] = fired.iter().fold(0, |word, a| word | 1 << a);
        firings += fired.len() as u64;
    }
    let admitted = holds(&session.chart, 0, 0, k);
    let added = Added {
        number: 0,
        rule: 0,
        admitted,
        firings,
    };
    Ok((session, added))
}

/// Whether the word of cell (i, k) has the symbol, rightly or not.
fn holds(chart: &[u64; CHART_WORDS], a: usize, i: usize, k: usize) -> bool {
    chart[cell(i, k)] >> a & 1 == 1
}

/// The symbol of each rule that fires over (i, k), which ends in the event: once for an event rule,
/// and for a pair rule once for each split.
fn fired(
    grammar: &Grammar,
    chart: &[u64; CHART_WORDS],
    event: u16,
    i: usize,
    k: usize,
) -> Vec<usize> {
    let mut fired = Vec::new();
    for rule in &grammar.event_rules {
        if k == i + 1 && rule.event == event {
            fired.push(rule.symbol);
        }
    }
    for rule in &grammar.pair_rules {
        for j in i + 1..k {
            if holds(chart, rule.left, i, j) && holds(chart, rule.right, j, k) {
                fired.push(rule.symbol);
            }
        }
    }
    fired
}

fn taken_back(mut session: Session) -> Result<Session, Refusal> {
    refuse_if(session.count == 0 || session.count > MOST_ADDED, 18)?;
    let k = session.count as usize;
    for i in 0..k {
        session.chart[cell(i, k)] = 0;
    }
    session.count -= 1;
    Ok(session)
}
