//! The proved services, called through the C functions of the archive.

use crate::answers::{Added, Checked, Counted, Judged, Numbered, Paged, Refusal};
use crate::sizes::SessionChart;
pub use archive::begin;

pub fn judge(image: &[u8], events: &[u16], chart: &mut [u64]) -> Judged {
    archive::judge(image, events, chart).into()
}

pub fn count(image: &[u8], events: &[u16], table: &mut [u32]) -> Counted {
    archive::count(image, events, table).into()
}

pub fn reading(
    image: &[u8],
    events: &[u16],
    k: u32,
    table: &mut [u32],
    script: &mut [u16],
) -> Refusal {
    archive::reading(image, events, k, table, script).into()
}

pub fn page(
    image: &[u8],
    events: &[u16],
    k: u32,
    m: u32,
    table: &mut [u32],
    room: &mut [u16],
) -> Paged {
    archive::page(image, events, k, m, table, room).into()
}

pub fn number(image: &[u8], events: &[u16], script: &[u16], table: &mut [u32]) -> Numbered {
    archive::number(image, events, script, table).into()
}

pub fn check(image: &[u8], events: &[u16], script: &[u16]) -> Checked {
    archive::check(image, events, script).into()
}

pub fn add(image: &[u8], chart: &mut SessionChart, count: &mut u64, event: u16) -> Added {
    archive::add(image, chart, count, event).into()
}

pub fn take_back(chart: &mut SessionChart, count: &mut u64) -> Refusal {
    archive::take_back(chart, count).into()
}

pub fn judge_bytes(image: &[u8], events: &[u8], chart: &mut [u8]) -> Judged {
    archive::judge_bytes(image, events, chart).into()
}

pub fn count_bytes(image: &[u8], events: &[u8], table: &mut [u8]) -> Counted {
    archive::count_bytes(image, events, table).into()
}

pub fn reading_bytes(
    image: &[u8],
    events: &[u8],
    k: u32,
    table: &mut [u8],
    room: &mut [u8],
) -> Refusal {
    archive::reading_bytes(image, events, k, table, room).into()
}
