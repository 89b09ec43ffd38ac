//! A session that is grown from none with one image.

use crate::calls::call::Call;
use crate::calls::called::Called;
use crate::calls::lent::{Lent, LentSession};
use crate::calls::setting::Setting;
use crate::comparisons::agreement::{agree, compare_sides};
use crate::comparisons::session_calls::SessionCalls;
use crate::draw::damage::FAULTS;
use crate::notes::sessions::{fresh, GROWN};
use second::image::decode;
use second::random::Random;
use second::session::begin;
use std::mem::replace;

/// The session, and how it came to be.
struct Grown {
    session: LentSession,
    events: Vec<u16>,
    /// For each event the session before it, and the firings of its column.
    past: Vec<(LentSession, u64)>,
}

/// How many calls, and one in how many takes an event back. Many calls with many rules take long
/// and are rare.
fn any_calls(random: &mut Random, pair_rules: usize) -> (usize, usize) {
    let many_in = match pair_rules {
        0..=16 => 8,
        17..=80 => 40,
        _ => 160,
    };
    match random.once_in(many_in) {
        true => (random.within(36, 48), 16),
        false => (random.within(2, 12), 4),
    }
}

/// Events are added and taken back, also past both ends.
pub fn grow(calls: &mut SessionCalls) -> Result<(), String> {
    let (number, back_in) = any_calls(calls.random, calls.pair_rules);
    let mut grown = Grown::begun(calls)?;
    for _ in 0..number {
        match calls.random.below(back_in) {
            0 => grown.shorten(calls)?,
            _ => grown.lengthen(calls)?,
        }
    }
    grown.add_refused(calls)
}

impl Grown {
    /// The session without events, whatever was there.
    fn begun(calls: &mut SessionCalls) -> Result<Self, String> {
        let (_, session) = calls.any_session();
        let empty = session.clone().with(&begin());
        let lent = calls.lent(Call::Begin { session }, &[]);
        let ended = compare_sides(&lent)?;
        let session = empty.clone();
        let told = Called::with_success([0; 3], lent.with_call(Call::Begin { session }));
        agree(&lent, [("begun", &ended), ("empty", &told)])?;
        calls.noted(GROWN, &lent, ended)?;
        Ok(Grown {
            session: empty,
            events: Vec::new(),
            past: Vec::new(),
        })
    }

    /// By one event, if it isn't full.
    fn lengthen(&mut self, calls: &mut SessionCalls) -> Result<(), String> {
        let event = calls.any_event(self.events.len(), 24);
        let events = [&self.events[..], &[event]].concat();
        let Called { answer, setting } = calls.add(GROWN, self.session.clone(), &events)?;
        if answer.number != 0 {
            return Ok(());
        }
        let [admitted, firings, _] = answer.rest;
        let session = setting.session().clone();
        let before = replace(&mut self.session, session);
        self.past.push((before, firings));
        self.events = events;
        // A judgement with many rules or events takes long and is rare.
        let work = calls.pair_rules * self.events.len().pow(3);
        match calls.random.once_in(work / 200_000 + 1) {
            true => self.compare_fresh(calls, admitted, &setting),
            false => Ok(()),
        }
    }

    /// A fresh judgement of its events gives the same verdict, leaves the same chart, and fires as
    /// often as all its columns did.
    fn compare_fresh(
        &self,
        calls: &mut SessionCalls,
        admitted: u64,
        setting: &Setting,
    ) -> Result<(), String> {
        let chart = self.session.chart.clone();
        let ones = chart.slice().iter().map(|word| word.count_ones());
        let firings = self.past.iter().map(|(_, firings)| firings);
        let rest = [admitted, ones.sum::<u32>().into(), firings.sum()];
        let empty = chart.clone().with(&begin().chart);
        let lent = setting.with_call(Call::Judge { chart: empty });
        let told = Called::with_success(rest, setting.with_call(Call::Judge { chart }));
        let judged = compare_sides(&lent)?;
        calls.tally.add(fresh(self.events.len()));
        agree(&lent, [("fresh", &judged), ("grown", &told)])
    }

    /// By one event, if it has one: to the session that it was before.
    fn shorten(&mut self, calls: &mut SessionCalls) -> Result<(), String> {
        let ended = calls.take_back(GROWN, self.session.clone(), &self.events)?;
        if let Some((earlier, _)) = self.past.pop() {
            self.events.pop();
            let longer = replace(&mut self.session, earlier.clone());
            let with = |session| ended.setting.with_call(Call::TakeBack { session });
            let (lent, told) = (with(longer), Called::with_success([0; 3], with(earlier)));
            agree(&lent, [("shortened", &ended), ("earlier", &told)])?;
        }
        Ok(())
    }

    /// The image with a fault, if it is refused then, adds nothing.
    fn add_refused(&self, calls: &mut SessionCalls) -> Result<(), String> {
        let mut image = calls.image.slice().to_vec();
        let (_, fault) = calls.random.one_of(&FAULTS);
        fault(calls.random, &mut image);
        if decode(&image).is_ok() {
            return Ok(());
        }
        let event = calls.any_event(self.events.len(), 24);
        let session = self.session.clone();
        let mut lent = calls.lent(Call::Add { session, event }, &[event]);
        lent.image = Lent::holding(calls.random, &image);
        let ended = compare_sides(&lent)?;
        calls.noted(GROWN, &lent, ended)?;
        Ok(())
    }
}
