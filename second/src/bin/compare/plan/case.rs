//! One image and one record, and the calls that can be made with them.

use crate::calls::call::Call;
use crate::calls::lent::{Lent, Word};
use crate::calls::setting::{Setting, Step};
use crate::draw::lengths::LONGEST;
use crate::draw::pages::{Page, MOST_WORDS};
use crate::draw::scripts::Script;
use crate::draw::symbols::symbols_shown;
use crate::notes::tally::Tally;
use second::derive::cells;
use second::image::decode;
use second::random::Random;
use second::services::MOST_EVENTS;
use second::trees::script_words;

/// What calls are drawn from.
pub struct Case<'a> {
    pub random: &'a mut Random,
    pub tally: &'a mut Tally,
    pub image: &'a [u8],
    pub events: &'a [u16],
    pub accepted: bool,
    /// The number of events that rooms are measured by: not the true one where it is refused, or
    /// rooms would be very long.
    pub n: usize,
    /// The words of a count table, as far as that can be told of a refused image.
    pub table: usize,
}

impl<'a> Case<'a> {
    pub fn new(
        random: &'a mut Random,
        tally: &'a mut Tally,
        image: &'a [u8],
        events: &'a [u16],
    ) -> Self {
        let n = events.len().min(LONGEST);
        Case {
            random,
            tally,
            image,
            events,
            accepted: decode(image).is_ok(),
            n,
            table: symbols_shown(image) * cells(n),
        }
    }

    pub fn test(&mut self, image: &[u8]) -> Step {
        let mut step = self.step(Call::Test);
        step.setting.image = Lent::holding(self.random, image);
        step
    }

    pub fn judge(&mut self) -> Step {
        let chart = self.room("chart", cells(self.n));
        self.step(Call::Judge { chart })
    }

    pub fn count(&mut self) -> Step {
        let table = self.room("table", self.table);
        self.step(Call::Count { table })
    }

    pub fn reading(&mut self, k: u32, note: &str) -> Step {
        let table = self.room("table", self.table);
        let script = self.room("script room", script_words(self.n));
        Step {
            note: note.to_string(),
            ..self.step(Call::Reading { k, table, script })
        }
    }

    pub fn check(&mut self, script: &Script) -> Step {
        let words = Lent::holding(self.random, &script.words);
        self.offered(script, Call::Check { script: words })
    }

    pub fn number(&mut self, script: &Script) -> Step {
        let table = self.room("table", self.table);
        let words = Lent::holding(self.random, &script.words);
        let call = Call::Number {
            script: words,
            table,
        };
        self.offered(script, call)
    }

    pub fn page(&mut self, page: &Page) -> Step {
        let table = self.room("table", self.table);
        let room = self.page_room(page);
        self.paged(page, table, room)
    }

    /// The page in rooms that are just enough.
    pub fn exact_page(&mut self, page: &Page) -> Step {
        let table = Lent::room(self.random, self.table);
        let room = Lent::room(self.random, page.m as usize * script_words(self.n));
        self.paged(page, table, room)
    }

    fn paged(&mut self, page: &Page, table: Lent<u32>, room: Lent<u16>) -> Step {
        let short = page.room_for_those(script_words(self.n), room.slice().len());
        let (k, m) = (page.k, page.m);
        Step {
            note: page.what() + short,
            ..self.step(Call::Page { k, m, table, room })
        }
    }

    /// The reading of this number, and the number of its script, in rooms that are just enough.
    pub fn both_ways(&mut self, k: u32, words: &[u16]) -> [Step; 2] {
        let [table, other_table] = [0; 2].map(|_| Lent::room(self.random, self.table));
        let room = Lent::room(self.random, words.len());
        let script = Lent::holding(self.random, words);
        let reading = Call::Reading {
            k,
            table,
            script: room,
        };
        let number = Call::Number {
            script,
            table: other_table,
        };
        [reading, number].map(|call| Step {
            note: "each of few".to_string(),
            ..self.step(call)
        })
    }

    pub fn step(&mut self, call: Call) -> Step {
        let setting = Setting {
            image: Lent::holding(self.random, self.image),
            events: Lent::holding(self.random, self.events),
            call,
        };
        let note = String::new();
        Step { setting, note }
    }

    /// With the record that the script is offered with.
    fn offered(&mut self, script: &Script, call: Call) -> Step {
        let mut step = self.step(call);
        step.setting.events = Lent::holding(self.random, &script.events);
        step.note = script.what.clone();
        step
    }

    /// For all scripts if they aren't too many; sometimes of a length that is mistaken for that.
    fn page_room(&mut self, page: &Page) -> Lent<u16> {
        let words = script_words(self.n);
        let need = page.m as usize * words;
        if need > MOST_WORDS || self.random.once_in(6) {
            let len = self.random.one_of(&page.lengths(words));
            return self.room_of("page room", need, len);
        }
        self.room("page room", need)
    }

    /// Mostly just enough or a little more, sometimes one word short or much too short.
    fn room<T: Word>(&mut self, what: &str, need: usize) -> Lent<T> {
        let len = match self.random.below(16) {
            0 => 0,
            1 => self.random.below(need + 1),
            2 => need.saturating_sub(1),
            3..=7 => need + self.random.within(1, 5),
            _ => need,
        };
        self.room_of(what, need, len)
    }

    /// So long a room, where so many words are needed.
    fn room_of<T: Word>(&mut self, what: &str, need: usize, len: usize) -> Lent<T> {
        let fit = match len {
            _ if len == need => "exact",
            _ if len > need => "longer",
            0 => "empty",
            _ if len + 1 == need => "one word short",
            _ => "shorter",
        };
        self.tally.add(format!("{what}: {fit}"));
        // Where nothing else is refused the room decides.
        if self.accepted && self.n == MOST_EVENTS {
            let n = self.n;
            self.tally.add(format!("{what} for {n} events: {fit}"));
        }
        Lent::room(self.random, len)
    }
}
