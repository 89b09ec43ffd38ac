//! A call whose outcome is known, and the comparison of all sides in it.

use crate::answers::Refusal;
use crate::bytes::Bytes;
use crate::grammars::{flagged, image, stop, stop_and};
use crate::records::{Input, Session, Words};
use crate::sizes::SessionChart;
use std::fmt::Debug;
use std::mem::replace;

/// Stands in every lent word before a call but a session's, as many bits of it as fit: no case gives
/// such a word.
const POISON: u64 = 0xDEAD_BEEF_DEAD_BEEF;

/// How many words more than needed are lent.
const SPARE: usize = 8;

/// The memory that a caller lends.
#[derive(PartialEq)]
pub struct Lent {
    pub chart: Vec<u64>,
    pub table: Vec<u32>,
    pub script: Vec<u16>,
    /// The events of a session, whose chart is the first words of the chart.
    pub count: u64,
    /// The record's events and the same memory once more, where a case is about bytes.
    bytes: Option<Bytes>,
}

impl Lent {
    fn new(words: Words, session: &Session) -> Self {
        let mut chart = session.chart.clone();
        chart.resize(words.chart, POISON);
        Lent {
            chart,
            table: vec![POISON as u32; words.table],
            script: vec![POISON as u16; words.script],
            count: session.count,
            bytes: None,
        }
    }

    fn with_bytes(mut self, events: &[u16]) -> Self {
        let bytes = Bytes::lent(events, &self.chart, &self.table, &self.script);
        self.bytes = Some(bytes);
        self
    }

    pub fn bytes(&mut self) -> &mut Bytes {
        self.bytes.as_mut().expect("memory that is lent as bytes")
    }

    /// The words that a call left, or those that its bytes show if it was one on bytes: it wrote those
    /// and no words.
    fn in_words(mut self, before: Lent) -> Self {
        let bytes = replace(&mut self.bytes, before.bytes);
        if bytes != self.bytes {
            let words = (before.chart, before.table, before.script);
            assert!(
                words == (self.chart, self.table, self.script),
                "words and bytes"
            );
            (self.chart, self.table, self.script) = bytes.expect("bytes that differ").left();
        }
        self
    }

    pub fn session(&mut self) -> (&mut SessionChart, &mut u64) {
        let chart = self.chart.first_chunk_mut();
        (chart.expect("room for a session"), &mut self.count)
    }

    /// Whether these first words of each kind were written, and no others.
    fn written(&self, words: Words) -> bool {
        first_written(&self.chart, POISON, words.chart)
            && first_written(&self.table, POISON as u32, words.table)
            && first_written(&self.script, POISON as u16, words.script)
    }
}

fn first_written<T: PartialEq>(lent: &[T], poison: T, count: usize) -> bool {
    let (used, past) = lent.split_at(count);
    !used.contains(&poison) && past.iter().all(|w| *w == poison)
}

pub struct Case<A> {
    pub input: Input,
    /// The words that are lent.
    pub room: Words,
    /// The words that the call writes, with those of a session before them.
    written: Words,
    pub told: A,
    /// What else is known of the words after the call.
    known: Box<dyn Fn(&Lent) -> bool>,
    /// Whether memory is lent as bytes too.
    on_bytes: bool,
}

impl<A: From<Refusal>> Case<A> {
    /// A call that gets more room than it needs.
    pub fn new(input: Input, written: Words, told: A) -> Self {
        let needs = input.needs();
        let room = Words {
            chart: needs.chart + SPARE,
            table: needs.table + SPARE,
            script: needs.script + SPARE,
        };
        Case {
            input,
            room,
            written,
            told,
            known: Box::new(|_| true),
            on_bytes: false,
        }
    }

    /// A call that is refused and writes nothing.
    pub fn refused(input: Input, refusal: impl Into<Refusal>) -> Self {
        Case::new(input, Words::default(), A::from(refusal.into()))
    }

    pub fn with_room(self, room: Words) -> Self {
        Case { room, ..self }
    }

    pub fn knowing(self, known: impl Fn(&Lent) -> bool + 'static) -> Self {
        Case {
            known: Box::new(known),
            ..self
        }
    }
}

impl<A> Case<A> {
    pub fn on_bytes(self) -> Self {
        Case {
            on_bytes: true,
            ..self
        }
    }

    pub fn lent(&self) -> Lent {
        let lent = Lent::new(self.room, &self.input.session);
        match self.on_bytes {
            true => lent.with_bytes(&self.input.events),
            false => lent,
        }
    }
}

/// A name, and how a service is called on that side. The first side is ours.
pub type Side<F> = (&'static str, F);

/// Every answer is what the case says, and so are the first side's words, to which the others' are
/// equal.
pub fn verify<A, F>(sides: &[Side<F>], case: &Case<A>)
where
    A: Debug + PartialEq,
    F: Fn(&Input, &mut Lent) -> A,
{
    let mut first = None;
    for (side, call) in sides {
        let name = format!("{}, {side}", case.input.title());
        let mut lent = case.lent();
        let got = call(&case.input, &mut lent);
        let lent = lent.in_words(case.lent());
        assert_eq!(got, case.told, "{name}: the answer");
        assert!(lent.written(case.written), "{name}: what was written");
        match &first {
            Some(first) => assert!(lent == *first, "{name}: the words"),
            None => {
                assert!((case.known)(&lent), "{name}: what the words tell");
                first = Some(lent);
            }
        }
    }
}

/// Images that are each at fault in what its number of 1 to 7 and 15 names, with 6 and 7 in the rule
/// that is given.
pub fn images_at_fault() -> [(Refusal, Vec<u8>); 15] {
    let spoiled = |at: usize, byte: u8| {
        let mut image = stop();
        image[at] = byte;
        image
    };
    let mut twice = stop();
    twice.copy_within(10..13, 13);
    let faults = [
        (1, 0, stop()[..9].to_vec()),
        (2, 0, spoiled(2, b'X')),
        (3, 0, spoiled(3, 3)),
        (3, 0, spoiled(4, 1)),
        (4, 0, spoiled(5, 65)),
        (4, 0, flagged(&stop(), 2)),
        (5, 0, [stop(), vec![0]].concat()),
        (5, 0, flagged(&stop(), 1)[..10].to_vec()),
        (6, 6, spoiled(30, 6)),
        (6, 6, flagged(&spoiled(30, 6), 1)),
        (7, 1, twice),
        (15, 0, stop_and(7, &[], &[[3, 4, 6]])),
        (15, 0, stop_and(7, &[], &[[3, 4, 6], [6, 2, 6]])),
        (15, 0, stop_and(7, &[(6, 1)], &[])),
        (15, 0, flagged(&image(1, &[], &[]), 1)),
    ];
    faults.map(|(number, rule, image)| (Refusal { number, rule }, image))
}

/// Refusals 1 to 7, 15 and 8, which every service over a record gives. Those of an image come before
/// 8, and all before the refusals for too little room, so they are given with and without it.
pub fn at_fault<A: From<Refusal>>() -> Vec<Case<A>> {
    let of_image = |(refusal, image): (Refusal, Vec<u8>)| {
        [0, 3, 97].map(|events| (refusal, image.clone(), events))
    };
    let of_length = (8.into(), stop(), 97);
    let faults = images_at_fault()
        .into_iter()
        .flat_map(of_image)
        .chain([of_length]);
    let case = |(refusal, image, events)| {
        let input = Input::new("refused", image, &vec![1; events]);
        let [ample, none] = [input.clone(), input].map(|input| Case::refused(input, refusal));
        [ample, none.with_room(Words::default())]
    };
    faults.flat_map(case).collect()
}
