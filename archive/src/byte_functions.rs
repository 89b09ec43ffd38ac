//! The functions on bytes, from an archive of their own: events, charts, tables and rooms are bytes,
//! each word low byte first, and may stand at any address.

use crate::answers::{Counted, Judged, Read};

// Not bundled, as with the other archive.
#[link(name = "boundary_bytes", kind = "static", modifiers = "-bundle")]
extern "C" {
    fn reader_judge_bytes(
        image: *const u8,
        image_len: usize,
        events: *const u8,
        events_len: usize,
        chart: *mut u8,
        chart_len: usize,
        rule: *mut u16,
        admitted: *mut u8,
        items: *mut u64,
        firings: *mut u64,
    ) -> u8;

    fn reader_count_bytes(
        image: *const u8,
        image_len: usize,
        events: *const u8,
        events_len: usize,
        table: *mut u8,
        table_len: usize,
        rule: *mut u16,
        total: *mut u32,
    ) -> u8;

    fn reader_reading_bytes(
        image: *const u8,
        image_len: usize,
        events: *const u8,
        events_len: usize,
        k: u32,
        table: *mut u8,
        table_len: usize,
        room: *mut u8,
        room_len: usize,
        rule: *mut u16,
    ) -> u8;
}

#[inline]
pub fn judge_bytes(image: &[u8], events: &[u8], chart: &mut [u8]) -> Judged {
    let mut answer = Judged::UNWRITTEN;
    // SAFETY: as said of every call.
    answer.refusal = unsafe {
        reader_judge_bytes(
            image.as_ptr(),
            image.len(),
            events.as_ptr(),
            events.len(),
            chart.as_mut_ptr(),
            chart.len(),
            &mut answer.rule,
            &mut answer.admitted,
            &mut answer.items,
            &mut answer.firings,
        )
    };
    answer
}

#[inline]
pub fn count_bytes(image: &[u8], events: &[u8], table: &mut [u8]) -> Counted {
    let mut answer = Counted::UNWRITTEN;
    // SAFETY: as said of every call.
    answer.refusal = unsafe {
        reader_count_bytes(
            image.as_ptr(),
            image.len(),
            events.as_ptr(),
            events.len(),
            table.as_mut_ptr(),
            table.len(),
            &mut answer.rule,
            &mut answer.total,
        )
    };
    answer
}

#[inline]
pub fn reading_bytes(
    image: &[u8],
    events: &[u8],
    k: u32,
    table: &mut [u8],
    room: &mut [u8],
) -> Read {
    let mut answer = Read::UNWRITTEN;
    // SAFETY: as said of every call.
    answer.refusal = unsafe {
        reader_reading_bytes(
            image.as_ptr(),
            image.len(),
            events.as_ptr(),
            events.len(),
            k,
            table.as_mut_ptr(),
            table.len(),
            room.as_mut_ptr(),
            room.len(),
            &mut answer.rule,
        )
    };
    answer
}
