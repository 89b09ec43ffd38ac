//! What is noted of the calls that were made, and what must have occurred after many.

pub mod answers;
pub mod bytes;
mod columns;
mod events;
pub mod expected;
mod facts;
mod filled;
mod images;
mod layouts;
mod needs;
mod pages;
mod quiet;
mod remarks;
mod rules;
mod services;
pub mod sessions;
mod splits;
mod symbols;
pub mod tally;
