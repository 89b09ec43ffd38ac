//! Calls with sessions on both sides, all with one image.

use crate::calls::call::Call;
use crate::calls::called::Called;
use crate::calls::lent::{Lent, LentSession};
use crate::calls::setting::Setting;
use crate::comparisons::agreement::{agree, compare_sides};
use crate::comparisons::twins::compare_with_twin;
use crate::draw::events::but_for_one_bit;
use crate::draw::sessions::any_session;
use crate::draw::symbols::symbols_shown;
use crate::notes::answers::{note_image, note_number};
use crate::notes::sessions::{lines, Origin};
use crate::notes::tally::Tally;
use second::image::decode;
use second::random::Random;
use std::mem::replace;

pub struct SessionCalls<'a> {
    pub random: &'a mut Random,
    pub tally: &'a mut Tally,
    pub image: Lent<u8>,
    pub accepted: bool,
    /// How many an accepted image has.
    pub pair_rules: usize,
    /// The events of the rules of an accepted image.
    ruled: Vec<u16>,
    record: &'a [u16],
    /// Whether an event was added already.
    added: bool,
}

impl<'a> SessionCalls<'a> {
    pub fn new(
        random: &'a mut Random,
        tally: &'a mut Tally,
        image: &[u8],
        record: &'a [u16],
    ) -> Self {
        let lent = Lent::holding(random, image);
        let grammar = decode(image).ok();
        let rules = grammar.iter().flat_map(|grammar| &grammar.event_rules);
        SessionCalls {
            random,
            tally,
            image: lent,
            accepted: grammar.is_some(),
            pair_rules: grammar
                .as_ref()
                .map_or(0, |grammar| grammar.pair_rules.len()),
            ruled: rules.map(|rule| rule.event).collect(),
            record,
            added: false,
        }
    }

    /// A session of any words, and how they are drawn.
    pub fn any_session(&mut self) -> (&'static str, LentSession) {
        let n = symbols_shown(self.image.slice());
        let (name, session) = any_session(self.random, n);
        (name, LentSession::holding(self.random, &session))
    }

    pub fn lent(&mut self, call: Call, events: &[u16]) -> Setting {
        Setting {
            image: self.image.clone(),
            events: Lent::holding(self.random, events),
            call,
        }
    }

    /// How the last of the events is added. The first time the image is looked at, too.
    pub fn add(
        &mut self,
        origin: Origin,
        session: LentSession,
        events: &[u16],
    ) -> Result<Called, String> {
        let event = *events.last().expect("an event to add");
        let lent = self.lent(Call::Add { session, event }, events);
        if replace(&mut self.added, true) {
            let ended = compare_sides(&lent)?;
            return self.noted(origin, &lent, ended);
        }
        let ended = compare_with_twin(self.random, self.tally, &lent)?;
        note_image(self.tally, &lent, &ended.answer);
        self.noted(origin, &lent, ended)
    }

    /// How the last of the events that are known is taken back.
    pub fn take_back(
        &mut self,
        origin: Origin,
        session: LentSession,
        events: &[u16],
    ) -> Result<Called, String> {
        let lent = self.lent(Call::TakeBack { session }, events);
        let ended = compare_sides(&lent)?;
        self.noted(origin, &lent, ended)
    }

    /// How a call ended, for the tally too, if it wasn't refused or else left all as it was.
    pub fn noted(
        &mut self,
        origin: Origin,
        lent: &Setting,
        ended: Called,
    ) -> Result<Called, String> {
        if ended.answer.number != 0 {
            let unchanged = Called {
                answer: ended.answer,
                setting: lent.clone(),
            };
            agree(lent, [("refused", &ended), ("unchanged", &unchanged)])?;
        }
        note_number(self.tally, lent, &ended.answer);
        for line in lines(origin, lent, &ended) {
            self.tally.add(line);
        }
        Ok(ended)
    }

    /// The record's event at this place, which begins again where it ends; once in so many times
    /// another, of a rule or not.
    pub fn any_event(&mut self, place: usize, other_in: usize) -> u16 {
        let ruled = match self.ruled[..] {
            [] => 7,
            _ => self.random.one_of(&self.ruled),
        };
        let event = match self.record {
            [] => ruled,
            record => record[place % record.len()],
        };
        match self.random.below(3 * other_in) {
            0 => self.random.word() as u16,
            1 => but_for_one_bit(self.random, event),
            2 => ruled,
            _ => event,
        }
    }
}
