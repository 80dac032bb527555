//! What the drivers share: tables, calls on both sides, and the count of answers.
pub mod calls;
pub mod child;
pub mod image;
pub mod pick;
pub mod rng;
pub mod tables;
pub mod tally;
