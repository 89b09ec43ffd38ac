//! What is compared: both sides in every call, and the proved side with itself.

mod again;
mod agreement;
mod bytes;
mod grown;
pub mod one_case;
mod services;
mod session_calls;
mod sessions;
mod strange;
mod twins;
