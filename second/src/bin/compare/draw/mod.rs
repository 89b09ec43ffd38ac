//! What a case is about: an image and a record, and the numbers, scripts, pages and sessions that
//! calls are made with. Nothing here knows of calls.

pub mod bytes;
pub mod changes;
pub mod damage;
pub mod events;
mod images;
pub mod kinds;
pub mod lengths;
pub mod numbers;
pub mod pages;
mod readings;
mod records;
pub mod scripts;
pub mod sessions;
pub mod symbols;
pub mod versions;
