//! The functions of the archive, and what calls them. Inlined, so that a call that is timed is one of
//! the C function alone.

use crate::answers::{Added, Checked, Numbered, Paged, Read, Tested};

crate::judge_and_count!("boundary", "reader_judge", "reader_count");

extern "C" {
    fn reader_test(
        image: *const u8,
        image_len: usize,
        rule: *mut u16,
        symbols: *mut usize,
        leaves: *mut usize,
        pairs: *mut usize,
    ) -> u8;

    fn reader_reading(
        image: *const u8,
        image_len: usize,
        events: *const u16,
        events_len: usize,
        k: u32,
        table: *mut u32,
        table_len: usize,
        script: *mut u16,
        script_len: usize,
        rule: *mut u16,
    ) -> u8;

    fn reader_page(
        image: *const u8,
        image_len: usize,
        events: *const u16,
        events_len: usize,
        k: u32,
        m: u32,
        table: *mut u32,
        table_len: usize,
        room: *mut u16,
        room_len: usize,
        rule: *mut u16,
        written: *mut u32,
    ) -> u8;

    fn reader_check(
        image: *const u8,
        image_len: usize,
        events: *const u16,
        events_len: usize,
        script: *const u16,
        script_len: usize,
        rule: *mut u16,
        yes: *mut u8,
    ) -> u8;

    fn reader_number(
        image: *const u8,
        image_len: usize,
        events: *const u16,
        events_len: usize,
        script: *const u16,
        script_len: usize,
        table: *mut u32,
        table_len: usize,
        rule: *mut u16,
        reading: *mut u32,
    ) -> u8;

    fn reader_begin(chart: *mut u64, count: *mut u64);

    fn reader_add(
        image: *const u8,
        image_len: usize,
        chart: *mut u64,
        count: *mut u64,
        event: u16,
        rule: *mut u16,
        admitted: *mut u8,
        firings: *mut u64,
    ) -> u8;

    fn reader_take_back(chart: *mut u64, count: *mut u64) -> u8;
}

/// The chart of a session, which is lent beside its count of events.
pub type SessionChart = [u64; 528];

#[inline]
pub fn test(image: &[u8]) -> Tested {
    let mut answer = Tested::UNWRITTEN;
    // SAFETY: as said of every call.
    answer.refusal = unsafe {
        reader_test(
            image.as_ptr(),
            image.len(),
            &mut answer.rule,
            &mut answer.symbols,
            &mut answer.leaves,
            &mut answer.pairs,
        )
    };
    answer
}

#[inline]
pub fn reading(
    image: &[u8],
    events: &[u16],
    k: u32,
    table: &mut [u32],
    script: &mut [u16],
) -> Read {
    let mut answer = Read::UNWRITTEN;
    // SAFETY: as said of every call.
    answer.refusal = unsafe {
        reader_reading(
            image.as_ptr(),
            image.len(),
            events.as_ptr(),
            events.len(),
            k,
            table.as_mut_ptr(),
            table.len(),
            script.as_mut_ptr(),
            script.len(),
            &mut answer.rule,
        )
    };
    answer
}

#[inline]
pub fn page(
    image: &[u8],
    events: &[u16],
    k: u32,
    m: u32,
    table: &mut [u32],
    room: &mut [u16],
) -> Paged {
    let mut answer = Paged::UNWRITTEN;
    // SAFETY: as said of every call.
    answer.refusal = unsafe {
        reader_page(
            image.as_ptr(),
            image.len(),
            events.as_ptr(),
            events.len(),
            k,
            m,
            table.as_mut_ptr(),
            table.len(),
            room.as_mut_ptr(),
            room.len(),
            &mut answer.rule,
            &mut answer.written,
        )
    };
    answer
}

#[inline]
pub fn check(image: &[u8], events: &[u16], script: &[u16]) -> Checked {
    let mut answer = Checked::UNWRITTEN;
    // SAFETY: as said of every call.
    answer.refusal = unsafe {
        reader_check(
            image.as_ptr(),
            image.len(),
            events.as_ptr(),
            events.len(),
            script.as_ptr(),
            script.len(),
            &mut answer.rule,
            &mut answer.yes,
        )
    };
    answer
}

#[inline]
pub fn number(image: &[u8], events: &[u16], script: &[u16], table: &mut [u32]) -> Numbered {
    let mut answer = Numbered::UNWRITTEN;
    // SAFETY: as said of every call.
    answer.refusal = unsafe {
        reader_number(
            image.as_ptr(),
            image.len(),
            events.as_ptr(),
            events.len(),
            script.as_ptr(),
            script.len(),
            table.as_mut_ptr(),
            table.len(),
            &mut answer.rule,
            &mut answer.reading,
        )
    };
    answer
}

#[inline]
pub fn begin(chart: &mut SessionChart, count: &mut u64) {
    // SAFETY: as said of every call.
    unsafe { reader_begin(chart.as_mut_ptr(), count) }
}

#[inline]
pub fn add(image: &[u8], chart: &mut SessionChart, count: &mut u64, event: u16) -> Added {
    let mut answer = Added::UNWRITTEN;
    // SAFETY: as said of every call.
    answer.refusal = unsafe {
        reader_add(
            image.as_ptr(),
            image.len(),
            chart.as_mut_ptr(),
            count,
            event,
            &mut answer.rule,
            &mut answer.admitted,
            &mut answer.firings,
        )
    };
    answer
}

/// The number alone; no rule is at fault here.
#[inline]
pub fn take_back(chart: &mut SessionChart, count: &mut u64) -> u8 {
    // SAFETY: as said of every call.
    unsafe { reader_take_back(chart.as_mut_ptr(), count) }
}
