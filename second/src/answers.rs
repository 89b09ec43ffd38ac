//! What each service answers: a refusal's number, or 0 for success. Beside a refusal all is zero,
//! but for the first rule at fault with 6 and 7; that is 0 with every other answer.

use crate::image::Refusal;

#[derive(Clone, Copy, Debug, Default, PartialEq)]
pub struct Tested {
    pub number: u8,
    pub rule: u16,
    pub symbols: usize,
    pub event_rules: usize,
    pub pair_rules: usize,
}

#[derive(Clone, Copy, Debug, Default, PartialEq)]
pub struct Judged {
    pub number: u8,
    pub rule: u16,
    pub admitted: bool,
    pub items: u64,
    pub firings: u64,
}

#[derive(Clone, Copy, Debug, Default, PartialEq)]
pub struct Counted {
    pub number: u8,
    pub rule: u16,
    pub total: u32,
}

#[derive(Clone, Copy, Debug, Default, PartialEq)]
pub struct Read {
    pub number: u8,
    pub rule: u16,
}

#[derive(Clone, Copy, Debug, Default, PartialEq)]
pub struct Checked {
    pub number: u8,
    pub rule: u16,
    pub yes: bool,
}

#[derive(Clone, Copy, Debug, Default, PartialEq)]
pub struct Numbered {
    pub number: u8,
    pub rule: u16,
    pub reading: u32,
}

#[derive(Clone, Copy, Debug, Default, PartialEq)]
pub struct Paged {
    pub number: u8,
    pub rule: u16,
    /// How many scripts are written.
    pub written: u32,
}

#[derive(Clone, Copy, Debug, Default, PartialEq)]
pub struct Added {
    pub number: u8,
    pub rule: u16,
    /// The verdict on the events so far.
    pub admitted: bool,
    /// Those of the new column alone.
    pub firings: u64,
}

/// What a service answers that refuses.
macro_rules! refused {
    ($($answer:ident)*) => {
        $(impl From<Refusal> for $answer {
            fn from(Refusal { number, rule }: Refusal) -> Self {
                let mut answer = $answer::default();
                (answer.number, answer.rule) = (number, rule);
                answer
            }
        })*
    };
}

refused!(Tested Judged Counted Read Checked Numbered Paged Added);
