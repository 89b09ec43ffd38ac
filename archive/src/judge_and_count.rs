//! `judge` and `count`, which are measured from more than one archive.

/// Declares both functions of a library by the names that they have there, and what calls them.
#[macro_export]
macro_rules! judge_and_count {
    ($library:literal, $judge:literal, $count:literal) => {
        // Not bundled, so that what doesn't call them is built without the library.
        #[link(name = $library, kind = "static", modifiers = "-bundle")]
        extern "C" {
            #[link_name = $judge]
            fn c_judge(
                image: *const u8,
                image_len: usize,
                events: *const u16,
                events_len: usize,
                chart: *mut u64,
                chart_len: usize,
                rule: *mut u16,
                admitted: *mut u8,
                items: *mut u64,
                firings: *mut u64,
            ) -> u8;

            #[link_name = $count]
            fn c_count(
                image: *const u8,
                image_len: usize,
                events: *const u16,
                events_len: usize,
                table: *mut u32,
                table_len: usize,
                rule: *mut u16,
                total: *mut u32,
            ) -> u8;
        }

        #[inline]
        pub fn judge(image: &[u8], events: &[u16], chart: &mut [u64]) -> $crate::answers::Judged {
            let mut answer = $crate::answers::Judged::UNWRITTEN;
            // SAFETY: as said of every call.
            answer.refusal = unsafe {
                c_judge(
                    image.as_ptr(),
                    image.len(),
                    events.as_ptr(),
                    events.len(),
                    chart.as_mut_ptr(),
                    chart.len(),
                    &mut answer.rule,
                    &mut answer.admitted,
                    &mut answer.items,
                    &mut answer.firings,
                )
            };
            answer
        }

        #[inline]
        pub fn count(image: &[u8], events: &[u16], table: &mut [u32]) -> $crate::answers::Counted {
            let mut answer = $crate::answers::Counted::UNWRITTEN;
            // SAFETY: as said of every call.
            answer.refusal = unsafe {
                c_count(
                    image.as_ptr(),
                    image.len(),
                    events.as_ptr(),
                    events.len(),
                    table.as_mut_ptr(),
                    table.len(),
                    &mut answer.rule,
                    &mut answer.total,
                )
            };
            answer
        }
    };
}
