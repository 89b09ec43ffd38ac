//! Which calls on bytes are made with an image and the bytes of a record.

use crate::calls::call::Call;
use crate::calls::lent::Lent;
use crate::calls::setting::Step;
use crate::draw::bytes::any_length;
use crate::draw::numbers;
use crate::plan::case::Case;
use second::bytes::events_in;
use second::derive::cells;
use second::image::well_formed;
use second::random::Random;
use second::readings::{cut, Readings};
use second::trees::script_words;

/// The bytes of a record with the case of the events that they show.
pub struct ByteCase<'a> {
    pub case: Case<'a>,
    pub bytes: &'a [u8],
}

impl ByteCase<'_> {
    /// Every service on bytes, and readings once more where they don't take long.
    pub fn steps(&mut self) -> Vec<Step> {
        let mut steps = vec![self.judge(), self.count()];
        let numbers = match well_formed(self.case.image) {
            Ok(grammar) if events_in(self.bytes).is_ok() => {
                let total = Readings::of(&grammar, self.case.events).total();
                let work = grammar.pair_rules.len() * self.case.n.pow(3);
                let read = if work <= 500_000 { 2 } else { 1 };
                (0..read)
                    .map(|_| any_number(self.case.random, total))
                    .collect()
            }
            _ => vec![(self.case.random.one_of(&[0, u32::MAX]), "")],
        };
        steps.extend(numbers.iter().map(|&(k, note)| self.reading(k, note)));
        steps
    }

    fn judge(&mut self) -> Step {
        let events = self.events();
        let chart = self.room(cells(self.case.n), size_of::<u64>());
        self.case.step(Call::JudgeBytes { events, chart })
    }

    fn count(&mut self) -> Step {
        let events = self.events();
        let table = self.room(self.case.table, size_of::<u32>());
        self.case.step(Call::CountBytes { events, table })
    }

    fn reading(&mut self, k: u32, note: &str) -> Step {
        let events = self.events();
        let table = self.room(self.case.table, size_of::<u32>());
        let script = self.room(script_words(self.case.n), size_of::<u16>());
        let call = Call::ReadingBytes {
            events,
            k,
            table,
            script,
        };
        Step {
            note: note.to_string(),
            ..self.case.step(call)
        }
    }

    fn events(&mut self) -> Lent<u8> {
        Lent::bytes(self.case.random, self.bytes.len()).with(self.bytes)
    }

    /// Where so many words of this size are needed.
    fn room(&mut self, words: usize, size: usize) -> Lent<u8> {
        let len = any_length(self.case.random, words, size);
        Lent::bytes(self.case.random, len)
    }
}

/// Of one of so many readings or of none, and what there is of it.
fn any_number(random: &mut Random, total: u64) -> (u32, &'static str) {
    let k = numbers::any(random, cut(total));
    (k, numbers::what_there_is(k, total))
}
