//! The services as each side offers them, and calls of them: the memory that is lent, and how a call
//! ends.

pub mod call;
pub mod called;
pub mod lent;
pub mod proved_side;
pub mod second_side;
pub mod setting;
pub mod side;
