//! What the functions answer: the refusal, or 0 for success, the rule at fault, and then the
//! rest in the order of the C function.
//!
//! A yes or no is taken as a byte, so that one that is neither 0 nor 1 is seen. Before a call each
//! part holds what hardly any answer is, so that one left unwritten is seen.

/// Neither yes nor no.
const NEITHER: u8 = u8::MAX;

/// Any total, number of a reading or number of scripts may be right here or there; this one hardly
/// ever is.
const UNLIKELY: u32 = 0x5A5A_5A5A;

/// An answer: its parts past the rule, and what each holds before a call.
macro_rules! answer {
    ($name:ident { $($part:ident: $type:ty = $before:expr),* }) => {
        pub struct $name {
            pub refusal: u8,
            pub rule: u16,
            $(pub $part: $type),*
        }

        impl $name {
            pub const UNWRITTEN: Self = $name {
                refusal: 0,
                // No refusal names this rule.
                rule: u16::MAX,
                $($part: $before),*
            };
        }
    };
}

answer!(Tested {
    symbols: usize = usize::MAX,
    leaves: usize = usize::MAX,
    pairs: usize = usize::MAX
});

answer!(Judged {
    admitted: u8 = NEITHER,
    items: u64 = u64::MAX,
    firings: u64 = u64::MAX
});

answer!(Counted {
    total: u32 = UNLIKELY
});

answer!(Read {});

answer!(Paged {
    written: u32 = UNLIKELY
});

answer!(Checked { yes: u8 = NEITHER });

answer!(Numbered {
    reading: u32 = UNLIKELY
});

answer!(Added {
    admitted: u8 = NEITHER,
    firings: u64 = u64::MAX
});
