//! Images of version 1 and records that meet their rules, one file for each way to draw them.

pub mod dead;
pub mod examples;
pub mod faulty;
pub mod layered;
pub mod seams;
pub mod sizes;
