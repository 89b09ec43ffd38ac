//! What both sides offer: the same functions.

use second::session::CHART_WORDS;

/// A refusal's number, or 0, the rule at fault, and then the service's other answers in the order
/// of the C function; 0 where a service has fewer.
#[derive(Clone, Copy, Debug, PartialEq)]
pub struct Answer {
    pub number: u8,
    pub rule: u16,
    pub rest: [u64; 3],
}

type Test = fn(&[u8]) -> Answer;
type Judge = fn(&[u8], &[u16], &mut [u64]) -> Answer;
type Count = fn(&[u8], &[u16], &mut [u32]) -> Answer;
type Reading = fn(&[u8], &[u16], u32, &mut [u32], &mut [u16]) -> Answer;
type Check = fn(&[u8], &[u16], &[u16]) -> Answer;
type Number = fn(&[u8], &[u16], &[u16], &mut [u32]) -> Answer;
type Page = fn(&[u8], &[u16], u32, u32, &mut [u32], &mut [u16]) -> Answer;
type Begin = fn(&mut Chart, &mut u64) -> Answer;
type Add = fn(&[u8], &mut Chart, &mut u64, u16) -> Answer;
type TakeBack = fn(&mut Chart, &mut u64) -> Answer;
type OnBytes = fn(&[u8], &[u8], &mut [u8]) -> Answer;
type ReadingBytes = fn(&[u8], &[u8], u32, &mut [u8], &mut [u8]) -> Answer;

/// The chart of a session, which is lent beside its count of events.
pub type Chart = [u64; CHART_WORDS];

pub struct Side {
    pub test: Test,
    pub judge: Judge,
    pub count: Count,
    pub reading: Reading,
    pub check: Check,
    pub number: Number,
    pub page: Page,
    pub begin: Begin,
    pub add: Add,
    pub take_back: TakeBack,
    pub judge_bytes: OnBytes,
    pub count_bytes: OnBytes,
    pub reading_bytes: ReadingBytes,
}

pub fn answer(number: u8, rule: u16, rest: [u64; 3]) -> Answer {
    Answer { number, rule, rest }
}
