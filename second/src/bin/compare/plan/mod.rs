//! Which calls are made with an image and a record, and what they are lent.

pub mod bytes;
pub mod case;
pub mod steps;
