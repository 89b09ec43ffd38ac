//! The reader once more, written from the text of the specification alone and as plainly as it can
//! be said, so that the proved reader can be compared with it.
#![forbid(unsafe_code)]

mod answers;
pub mod bytes;
pub mod derive;
pub mod drawn;
pub mod examples;
pub mod image;
pub mod listing;
pub mod live;
pub mod random;
pub mod readings;
pub mod services;
pub mod session;
pub mod trees;
