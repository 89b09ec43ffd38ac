//! The C functions of the proved library's archives, declared here once for all Rust that links them,
//! and called with slices in place of pointers. The headers in `c/` say what each function does.
//!
//! Every call is sound for the same reason: each pointer goes with the length of the slice that it
//! came from, is that of a session's chart, which has the length that it must have, or points to
//! one value of its type; the proved side stays within them and keeps none.

pub mod answers;
mod byte_functions;
mod functions;
mod judge_and_count;

pub use byte_functions::*;
pub use functions::*;
